//! The verb `join`, through the proved library.

use crate::run::{file, optbook, Ended, DOSING, DRYING};
use optbook::sheet::Sheet;
use optbook::text::numbered_names;
use optbook::Order;

const ORDER: &str = "examples/dosing.order";

/// The join of two texts, the first a file of this name.
fn join(name: &str, first: &str, second: &str, words: &[&str]) -> Ended {
    let first = file(name, first);
    optbook(&[&["join", &first, "-"][..], words].concat(), second.as_bytes())
}

/// What is printed, read back.
fn sheet(ended: &Ended) -> Sheet {
    assert_eq!((ended.said.as_str(), ended.status), ("", 0));
    Sheet::of("joint", ended.text()).unwrap()
}

/// What is printed, without comments.
fn lines(ended: &Ended) -> Vec<&str> {
    let lines = ended.text().lines().map(|line| line.split('#').next().unwrap().trim());
    lines.filter(|line| !line.is_empty()).collect()
}

/// What is said of a refusal; nothing is printed.
fn refused(ended: &Ended) -> &str {
    assert_eq!((ended.text(), ended.status), ("", 2));
    ended.said.strip_prefix("optbook: ").unwrap().strip_suffix('\n').unwrap()
}

#[test]
fn the_example_of_the_help_is_one_book_with_the_places_of_both() {
    let example =
        "optbook join examples/dosing.book examples/drying.book cabinet=panel --same-names";
    let help = optbook(&["join", "--help"], b"");
    assert!(help.text().contains(&format!("\n  {example}\n")), "{}", help.text());
    let words: Vec<&str> = example.split(' ').skip(1).collect();
    let ended = optbook(&words, b"");
    let due = "\
# examples/dosing.book and examples/drying.book joined
# pairs: cabinet=panel steam=steam water=water
options: third_vessel heated_jacket hand_dosing dosing_pump steam water cabinet  # examples/dosing.book
options: belt_dryer warm_air  # examples/drying.book
hand_dosing | dosing_pump     # examples/dosing.book: line 9
!third_vessel | dosing_pump   # examples/dosing.book: line 10
!dosing_pump | cabinet        # examples/dosing.book: line 13
!dosing_pump | water          # examples/dosing.book: line 14
!heated_jacket | steam        # examples/dosing.book: line 17
belt_dryer | warm_air         # examples/drying.book: line 9
steam | !belt_dryer           # examples/drying.book: line 10
water | !belt_dryer           # examples/drying.book: line 11
cabinet | !warm_air           # examples/drying.book: line 12
!steam | !cabinet             # examples/drying.book: line 15
standard: water               # examples/dosing.book: line 20
";
    assert_eq!((ended.text(), ended.status), (due, 0));
}

/// The row of vessels and the hall can each be built as they are ordered; together they cannot.
#[test]
fn the_joint_book_of_the_examples_can_be_checked_and_explained() {
    assert_eq!(optbook(&["check", DOSING, ORDER], b"").status, 0);
    assert_eq!(optbook(&["check", DRYING], b"").status, 0);
    let joint = optbook(&["join", DOSING, DRYING, "cabinet=panel", "--same-names"], b"").printed;
    assert_eq!(optbook(&["check", "-"], &joint).status, 0);
    assert_eq!(optbook(&["check", "-", ORDER], &joint).status, 1);
    let explained = optbook(&["explain", "-", ORDER], &joint);
    let due = [
        "options: third_vessel heated_jacket dosing_pump steam cabinet",
        "!third_vessel | dosing_pump",
        "!dosing_pump | cabinet",
        "!heated_jacket | steam",
        "!steam | !cabinet",
        "want: third_vessel",
        "want: heated_jacket",
    ];
    assert_eq!(lines(&explained), due);
}

#[test]
fn standard_options_and_wishes_of_both_books_are_carried_over_once() {
    let first = "options: a b c\nwant: a\nstandard: b\n!a | b\nwithout: c\n";
    let second = "options: b x y\nx | !y\nwant: x\nstandard: y b\nwithout: y\n";
    let ended = join("carried.book", first, second, &["b=b", "c=y"]);
    let due = [
        "options: a b c",
        "options: x",
        "!a | b",
        "!c | x",
        "want: a",
        "standard: b",
        "without: c",
        "want: x",
        "standard: c",
    ];
    assert_eq!(lines(&ended), due);
    let joint = sheet(&ended);
    assert_eq!(joint.order(), Order { wanted: 9, unwanted: 4, standard: 6 });
    assert_eq!(optbook(&["check", "-"], &ended.printed).status, 0);
}

#[test]
fn wishes_in_opposite_ways_are_a_mistake() {
    let first = file("opposite.book", "options: a\nwant: a\n");
    let ended = optbook(&["join", &first, "-", "a=x"], b"options: x\n\nwithout: x\n");
    let due = format!(
        "optbook: standard input: line 3: this is `without: a` in the joint book, and {first}: line 2 \
         is `want: a`: expected one of them\n"
    );
    assert_eq!((ended.said, ended.status), (due, 65));
    assert!(ended.printed.is_empty());
}

#[test]
fn without_pairs_the_options_of_the_second_book_follow() {
    let ended = join("apart.book", "options: a b\na | !b\n", "options: c d\n!c | d\nfalse\n", &[]);
    let due = ["options: a b", "options: c d", "a | !b", "!c | d", "false"];
    assert_eq!(lines(&ended), due);
    assert!(!ended.text().contains("pairs"), "{}", ended.text());
    let ended = join("same.book", "options: a\na\n", "options: a\n!a\n", &["--same-names"]);
    assert_eq!(lines(&ended), ["options: a", "a", "!a"]);
    let ended = join("empty.book", "", "# nothing\n", &["--same-names"]);
    assert_eq!((lines(&ended), sheet(&ended)), (Vec::new(), Sheet::default()));
}

#[test]
fn a_name_that_is_paired_twice_is_refused_by_the_library() {
    let (first, second) = ("options: a b\n", "options: x y\n");
    let twenty_two = "refused, number 22: a pair is incomplete, or names an option outside its \
                      book or one already paired";
    let ended = join("twice_first.book", first, second, &["b=x", "b=y"]);
    let path = file("twice_first.book", first);
    assert_eq!(refused(&ended), format!("{twenty_two}: `b` of {path} stands in two pairs"));
    let ended = join("twice_second.book", first, second, &["a=y", "b=y"]);
    let due = format!("{twenty_two}: `y` of standard input stands in two pairs");
    assert_eq!(refused(&ended), due);
    let ended = join("twice_both.book", first, second, &["a=x", "a=x"]);
    assert!(refused(&ended).starts_with(twenty_two));
}

#[test]
fn a_joint_book_that_is_too_large_is_refused_by_the_library() {
    let names = numbered_names(64);
    let first = format!("options: {}\n!x64\n", names.join(" "));
    let ended = join("large.book", &first, "options: x1 y\ny\n", &["--same-names"]);
    let twenty_three = "refused, number 23: the joint book has more than 64 options or 1,024 \
                        rules, or more bytes than are lent";
    assert_eq!(refused(&ended), format!("{twenty_three}: options 65, rules 2"));
    let ended = join("largest.book", &first, "options: x1 y\ny\n", &["x64=y", "--same-names"]);
    let joint = sheet(&ended);
    assert_eq!((&joint.names, joint.book().rules.len()), (&names, 2));

    let rules = |count| format!("options: a\n{}", "a\n".repeat(count));
    let words = ["--same-names"];
    let ended = join("long.book", &rules(1000), &rules(25), &words);
    assert_eq!(refused(&ended), format!("{twenty_three}: options 1, rules 1025"));
    let ended = join("longest.book", &rules(1000), &rules(24), &words);
    assert_eq!(sheet(&ended).book().rules.len(), 1024);
}

/// Small books from a running number, of which b and c are x and y: a choice keeps the joint book exactly
/// if its two parts keep the two books, by trying all choices.
#[test]
fn a_choice_keeps_the_joint_book_exactly_if_its_parts_keep_the_two() {
    let mut kept = 0;
    for number in 0..20 {
        let names = [["a", "b", "c", "d"], ["x", "e", "y", "f"]];
        let [first, second] = names.map(|names| small_book(number, names));
        let ended = join(&format!("small_{number}.book"), &first, &second, &["c=x", "b=y"]);
        let joint = sheet(&ended);
        assert_eq!(joint.names, ["a", "b", "c", "d", "e", "f"]);
        let [first, second] = [first, second].map(|text| Sheet::of("book", &text).unwrap());
        let keeps = |sheet: &Sheet, choice: u64| {
            sheet.book().rules.iter().all(|rule| rule.is_kept_by(choice))
        };
        for choice in 0..1 << 6 {
            let bit = |option: u32| choice >> option & 1;
            let of_second = bit(2) | bit(4) << 1 | bit(1) << 2 | bit(5) << 3;
            let due = keeps(&first, choice & 15) && keeps(&second, of_second);
            assert_eq!(keeps(&joint, choice), due, "{}", ended.text());
            kept += u32::from(due);
        }
    }
    assert!((100..1000).contains(&kept), "{kept} of 1280 choices keep their book");
}

/// A book of four options with three rules of two entries.
fn small_book(number: u64, names: [&str; 4]) -> String {
    let mut state = number * 8 + names[0].len() as u64 + u64::from(names[0].as_bytes()[0]);
    let mut next = |below: u64| {
        state = state.wrapping_mul(6364136223846793005).wrapping_add(1442695040888963407);
        (state >> 33) % below
    };
    let mut text = format!("options: {}\n", names.join(" "));
    for _ in 0..3 {
        let start = next(4);
        let other = start + 1 + next(3);
        let entries = [start, other].map(|option| {
            let sign = if next(2) == 0 { "" } else { "!" };
            format!("{sign}{}", names[(option % 4) as usize])
        });
        text += &format!("{}\n", entries.join(" | "));
    }
    text
}
