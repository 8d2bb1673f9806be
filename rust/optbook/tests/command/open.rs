//! The verb `open`, through the proved library.

use crate::run::{optbook, Ended, CAN, PLANT};
use optbook::sheet::Sheet;
use optbook::text::numbered_names;
use optbook::Order;

const CANNOT: &str = "examples/plant_cannot.order";

/// A book with its order in one text, with these options open.
fn open(text: &str, names: &[&str], flags: &[&str]) -> Ended {
    optbook(&[&["open", "-", "/dev/null"][..], names, flags].concat(), text.as_bytes())
}

/// The word of the first line, and the status.
fn verdict(ended: &Ended) -> (&str, i32) {
    (ended.text().split(':').next().unwrap(), ended.status)
}

/// Without the scrubber the air of a drum needs the biofilter. The tank is standard, and not needed.
#[test]
fn the_plants_open_options_are_told_with_the_last_setting() {
    let ended = optbook(&["open", PLANT, CAN, "biofilter", "leachate_tank"], b"");
    let mut lines = ended.text().lines();
    let sometimes = "sometimes: some settings of the open options can be built, but not all";
    assert_eq!((lines.next(), ended.status), (Some(sometimes), 4));
    let setting = "setting 4 of 4: fitted biofilter leachate_tank; left out (none)";
    assert_eq!(lines.next(), Some(setting));
    let can = "can be built: some choice of options keeps every rule and wish";
    assert_eq!(lines.next(), Some(can));
    assert!(lines.next().unwrap().starts_with("branchings "));
    assert!(lines.all(|line| line.starts_with("derived rule: ") || line.starts_with("record: ")));

    let ended = optbook(&["open", PLANT, CAN, "leachate_tank"], b"");
    assert_eq!(verdict(&ended), ("always", 0));
    let ended = optbook(&["open", PLANT, CANNOT, "roof", "leachate_tank", "drum"], b"");
    assert_eq!(verdict(&ended), ("never", 1));
}

#[test]
fn the_last_setting_is_told_as_a_check_tells_it() {
    let book = "options: a b c\n!a | b\n!b | !c\nstandard: a\n";
    let ended = open(book, &["c", "a"], &[]);
    let check = optbook(&["check", "-"], format!("{book}want: a c\n").as_bytes());
    let due = format!(
        "sometimes: some settings of the open options can be built, but not all\n\
         setting 4 of 4: fitted a c; left out (none)\n{}",
        check.text()
    );
    assert_eq!((ended.text(), ended.status), (due.as_str(), 4));
    assert_eq!(check.status, 1);
}

#[test]
fn with_nothing_open_the_order_itself_is_the_one_setting() {
    let ended = open("options: a b\n!a\nwant: b\n", &[], &[]);
    assert_eq!(verdict(&ended), ("always", 0));
    let setting = "\nsetting 1 of 1: fitted (none); left out (none)\ncan be built";
    assert!(ended.text().contains(setting), "{}", ended.text());
    assert_eq!(verdict(&open("options: a b\n!b\nwant: b\n", &[], &[])), ("never", 1));
}

/// The rule !a is kept without a branching where a is left out; fitted, it takes one, and one derived
/// rule.
#[test]
fn a_stop_is_told_with_its_setting() {
    let of = |places: &str, allowance: &str| {
        let flags = ["--places", places, "--allowance", allowance];
        open("options: b a\n!a\n", &["a", "b"], &flags)
    };
    assert_eq!(verdict(&of("1", "1")), ("sometimes", 4));
    for (ended, number) in [(of("1", "0"), 10), (of("0", "1"), 11)] {
        assert_eq!(verdict(&ended), ("stopped", 3));
        let due = format!(
            "\nsetting 3 of 4: fitted a; left out b\nstopped without a verdict, number {number}: "
        );
        assert!(ended.text().contains(&due), "{}", ended.text());
    }
}

#[test]
fn the_library_refuses_with_its_numbers() {
    let names = numbered_names(64);
    let names: Vec<&str> = names.iter().map(String::as_str).collect();
    let book = format!("options: {}\n", names.join(" "));
    assert_eq!(verdict(&open(&book, &names[54..], &[])), ("always", 0));
    let nineteen = "refused, number 19: more than 10 options are open, or one is above the book's \
                    last\nbranchings 0, derived rules 0, records 0\n";
    for names in [&names[..11], &names[53..], &names] {
        let ended = open(&book, names, &["--places", "2049"]);
        assert_eq!((ended.text(), ended.status), (nineteen, 2));
    }
    let twenty = "refused, number 20: an open option is also wanted or unwanted\n\
                  branchings 0, derived rules 0, records 0\n";
    for wish in ["want: x2", "without: x2"] {
        let ended = open(&format!("{book}{wish}\n"), &["x1", "x2"], &["--places", "2049"]);
        assert_eq!((ended.text(), ended.status), (twenty, 2));
    }
    let ended = open(&book, &["x1"], &["--places", "2049"]);
    assert_eq!(verdict(&ended), ("refused, number 9", 2));
}

/// Of each small book the first two options are open: what is said is what trying all choices shows.
#[test]
fn what_is_said_of_small_books_is_what_all_choices_show() {
    let mut seen = [0; 3];
    for number in 0..60 {
        let text = small_book(number);
        let sheet = Sheet::of("text", &text).unwrap();
        let Order { wanted, unwanted, .. } = sheet.order();
        let mut settings: Vec<u64> = (0..1 << 5)
            .filter(|choice| wanted & !choice == 0 && unwanted & choice == 0)
            .filter(|&choice| sheet.book().rules.iter().all(|rule| rule.is_kept_by(choice)))
            .map(|choice| choice & 3)
            .collect();
        settings.sort();
        settings.dedup();
        let (due, sort) = match settings.len() {
            0 => (("never", 1), 0),
            4 => (("always", 0), 1),
            _ => (("sometimes", 4), 2),
        };
        assert_eq!(verdict(&open(&text, &["a", "b"], &[])), due, "{text}");
        seen[sort] += 1;
    }
    assert!(seen.iter().all(|&seen| seen > 0), "{seen:?}");
}

/// A book of five options, of which the first is standard and the third wanted, and up to ten rules of
/// two or three entries.
fn small_book(number: u64) -> String {
    let mut state = number;
    let mut next = |below: u64| {
        state = state.wrapping_mul(6364136223846793005).wrapping_add(1442695040888963407);
        (state >> 33) % below
    };
    let names = ["a", "b", "c", "d", "e"];
    let mut text = format!("options: {}\nstandard: a\nwant: c\n", names.join(" "));
    for _ in 0..number / 6 {
        let start = next(5);
        let entries: Vec<String> = (0..2 + next(2))
            .map(|i| {
                let sign = if next(2) == 0 { "" } else { "!" };
                format!("{sign}{}", names[((start + i) % 5) as usize])
            })
            .collect();
        text += &format!("{}\n", entries.join(" | "));
    }
    text
}
