//! The verb `turns`, through the proved library.

use crate::run::{optbook, Ended, CAN, PLANT};
use optbook::sheet::Sheet;
use optbook::text::numbered_names;
use optbook::{option, Book, Order};

const ORDER: &str = "examples/plant_turns.order";

const CAN_BE: &str =
    "can be forced: whatever the buyer says, the planner can answer so that every rule and wish is kept\n";
const CANNOT_BE: &str =
    "cannot be forced: the buyer can choose so that a rule or wish is not kept, whatever the planner \
     answers\n";

/// A book with its order in one text.
fn turns(text: &str) -> Ended {
    optbook(&["turns", "-"], text.as_bytes())
}

/// What is printed, and the status.
fn told(ended: &Ended) -> (&str, i32) {
    assert_eq!(ended.said, "");
    (ended.text(), ended.status)
}

/// The drum needs the ring main or the two headers, and these exclude each other: the headers are what the
/// ring main is not. The large blower needs the scrubber, which is the planner's. Whatever the buyer says of
/// the biofilter and the roof, a plant without the screen keeps every rule.
#[test]
fn the_example_of_the_help_can_be_forced() {
    let example = format!("optbook turns {PLANT} {ORDER}");
    let help = optbook(&["turns", "--help"], b"");
    assert!(help.text().contains(&format!("\n  {example}\n")), "{}", help.text());
    let words: Vec<&str> = example.split(' ').skip(1).collect();
    let ended = optbook(&words, b"");
    let due = "turn 1, buyer: ring_main\n\
               turn 2, planner: twin_header\n\
               turn 3, buyer: biofilter\n\
               turn 4, planner: scrubber\n\
               turn 5, buyer: roof\n\
               turn 6, planner: screen\n\
               if the buyer leaves out ring_main: the planner fits twin_header\n\
               if the buyer fits ring_main: the planner leaves out twin_header\n";
    assert_eq!(told(&ended), (format!("{CAN_BE}{due}").as_str(), 0));
}

/// Whatever the buyer says in the three turns of the example, the planner who goes by the answers ends with a
/// plant. What was settled is added to the order before the next two turns.
#[test]
fn who_goes_by_the_answers_of_the_example_ends_with_a_plant() {
    for choices in 0..1 << 3 {
        let mut settled = include_str!("../../../../examples/plant_turns.order").to_string();
        for turn in 0..3 {
            let ended = optbook(&["turns", PLANT, "-"], settled.as_bytes());
            assert_eq!(ended.status, 0, "{settled}");
            let is_fitted = choices >> turn & 1 == 1;
            let choice = if is_fitted { "if the buyer fits " } else { "if the buyer leaves out " };
            let line = ended.text().lines().find_map(|line| line.strip_prefix(choice)).unwrap();
            let (of_buyer, answer) = line.split_once(": the planner ").unwrap();
            settled += &wish(is_fitted, of_buyer);
            settled += &match answer.strip_prefix("fits ") {
                Some(of_planner) => wish(true, of_planner),
                None => wish(false, answer.strip_prefix("leaves out ").unwrap()),
            };
        }
        let ended = optbook(&["turns", PLANT, "-"], settled.as_bytes());
        let due = "can be forced: no option is free, and the one choice that is left keeps every \
                   rule and wish\n";
        assert_eq!(told(&ended), (due, 0));
        assert_eq!(optbook(&["check", PLANT, "-"], settled.as_bytes()).status, 0);
    }
}

fn wish(is_fitted: bool, name: &str) -> String {
    format!("{} {name}\n", if is_fitted { "want:" } else { "without:" })
}

/// The plant's other order can be built, but the screen needs the windrows, which are the buyer's, and where
/// they are fitted the buyer leaves out the ring main, and the two headers need the scrubber in the end.
#[test]
fn what_can_be_built_need_not_be_forced() {
    assert_eq!(optbook(&["check", PLANT, CAN], b"").status, 0);
    let ended = optbook(&["turns", PLANT, CAN], b"");
    let due = "turn 1, buyer: windrows\n\
               turn 2, planner: tunnel\n\
               turn 3, buyer: ring_main\n\
               turn 4, planner: twin_header\n\
               turn 5, buyer: small_blower\n\
               turn 6, planner: large_blower\n\
               turn 7, buyer: biofilter\n\
               turn 8, planner: roof\n\
               if the buyer leaves out windrows: no answer of the planner's forces it\n\
               if the buyer fits windrows: no answer of the planner's forces it\n";
    assert_eq!(told(&ended), (format!("{CANNOT_BE}{due}").as_str(), 1));
}

/// Where b is standard, a is the buyer's and c the planner's.
#[test]
fn a_standard_option_has_no_turn() {
    let book = "options: a b c\n!b | a | c\n!a | !c\n";
    let due = "turn 1, buyer: a\n\
               turn 2, planner: c\n\
               if the buyer leaves out a: the planner fits c\n\
               if the buyer fits a: the planner leaves out c\n";
    let ended = turns(&format!("{book}standard: b\n"));
    assert_eq!(told(&ended), (format!("{CAN_BE}{due}").as_str(), 0));
    // without b no rule asks for c
    let ended = turns(&format!("{book}standard: b\nwithout: b\n"));
    let due = due.replace("fits c", "leaves out c");
    assert_eq!(told(&ended), (format!("{CAN_BE}{due}").as_str(), 0));
    // a free b is the planner's, and c the buyer's, who can fit it beside a
    let ended = turns(book);
    let due = "turn 1, buyer: a\n\
               turn 2, planner: b\n\
               turn 3, buyer: c\n\
               if the buyer leaves out a: the planner leaves out b\n\
               if the buyer fits a: no answer of the planner's forces it\n";
    assert_eq!(told(&ended), (format!("{CANNOT_BE}{due}").as_str(), 1));
}

#[test]
fn one_free_option_is_the_buyers() {
    let book = "options: a b\n!a | b\n";
    let turn = "turn 1, buyer: a\nthe planner has no turn: no second option is free\n";
    let ended = turns(&format!("{book}want: b\n"));
    let due =
        format!("can be forced: whatever the buyer says, every rule and wish is kept\n{turn}");
    assert_eq!(told(&ended), (due.as_str(), 0));
    let ended = turns(&format!("{book}without: b\n"));
    let due = format!(
        "cannot be forced: the buyer can choose so that a rule or wish is not kept\n{turn}"
    );
    assert_eq!(told(&ended), (due.as_str(), 1));
}

#[test]
fn with_no_free_option_the_one_choice_decides() {
    let one = "forced: no option is free, and the one choice that is left";
    let can = format!("can be {one} keeps every rule and wish\n");
    let cannot = format!("cannot be {one} does not keep every rule and wish\n");
    let book = "options: a b\n!a | b\n";
    let given = [
        ("want: a b\n", &can, 0),
        ("want: a\nstandard: b\n", &can, 0),
        ("without: a b\n", &can, 0),
        ("want: a\nwithout: b\n", &cannot, 1),
        ("want: a\nwithout: b\nstandard: b\n", &cannot, 1),
    ];
    for (order, due, status) in given {
        assert_eq!(told(&turns(&format!("{book}{order}"))), (due.as_str(), status), "{order}");
    }
    assert_eq!(told(&turns("")), (can.as_str(), 0));
    assert_eq!(told(&turns("false\n")), (cannot.as_str(), 1));
}

#[test]
fn the_library_refuses_more_than_12_free_options() {
    let names = numbered_names(64);
    let book = format!("options: {}\n!x64 | x63\n", names.join(" "));
    let ended = turns(&book);
    let due = format!(
        "refused, number 16: more than 12 options are free: 64\nfree: {}\n",
        names.join(" ")
    );
    assert_eq!(told(&ended), (due.as_str(), 2));
    let book = format!("{book}standard: {}\n", names[..50].join(" "));
    let ended = turns(&format!("{book}want: x52\n"));
    let due = format!(
        "refused, number 16: more than 12 options are free: 13\nfree: x51 {}\n",
        names[52..].join(" ")
    );
    assert_eq!(told(&ended), (due.as_str(), 2));
    // x63 is the buyer's and x64 the planner's
    let ended = turns(&format!("{book}want: x52\nwithout: x51\n"));
    assert_eq!((ended.text().lines().count(), ended.status), (1 + 12 + 2, 0));
    assert!(ended.text().starts_with(CAN_BE), "{}", ended.text());
    assert!(ended.text().contains("\nturn 11, buyer: x63\nturn 12, planner: x64\n"));
}

#[test]
fn what_is_said_of_small_books_is_what_all_plays_show() {
    let mut seen = Vec::new();
    for number in 0..100 {
        let text = small_book(number);
        let sheet = Sheet::of("text", &text).unwrap();
        let (book, Order { wanted, unwanted, .. }) = (sheet.book(), sheet.order().completed());
        let free: Vec<u64> =
            (0..6).map(option).filter(|option| (wanted | unwanted) & option == 0).collect();
        let answer = |choice| {
            let serves = |choice| is_won(&book, choice, &free[2..], true);
            let name = &sheet.names[free[1].trailing_zeros() as usize];
            match (serves(choice), serves(choice | free[1])) {
                (true, _) => format!("the planner leaves out {name}"),
                (false, true) => format!("the planner fits {name}"),
                (false, false) => "no answer of the planner's forces it".to_string(),
            }
        };
        let is_forced = is_won(&book, wanted, &free, true);
        let answers = [answer(wanted), answer(wanted | free[0])];
        let ended = turns(&text);
        let lines: Vec<&str> = ended.text().lines().collect();
        let given = lines[lines.len() - 2..].iter().map(|line| line.split_once(": ").unwrap().1);
        assert_eq!(given.collect::<Vec<_>>(), answers, "{text}");
        assert_eq!(ended.text().starts_with(CAN_BE), is_forced, "{text}");
        assert_eq!(ended.status, i32::from(!is_forced), "{text}");
        let sort = answers.map(|answer| answer.split(' ').nth(2).unwrap().to_string());
        seen.push((is_forced, sort));
    }
    seen.sort();
    seen.dedup();
    // all pairs of two of the three answers
    assert_eq!(seen.len(), 9, "{seen:?}");
}

/// The planner can force it from here on: the options of a choice are fitted, and these are to be settled.
fn is_won(book: &Book, choice: u64, free: &[u64], buyers: bool) -> bool {
    let Some((option, rest)) = free.split_first() else {
        return book.rules.iter().all(|rule| rule.is_kept_by(choice));
    };
    let mut ways = [choice, choice | option].into_iter();
    let is_won = |choice| is_won(book, choice, rest, !buyers);
    match buyers {
        true => ways.all(is_won),
        false => ways.any(is_won),
    }
}

/// A book of six options, of which one is standard and one, maybe the same, wanted or unwanted, and one to
/// six rules of two or three entries.
fn small_book(number: u64) -> String {
    let mut state = number;
    let mut next = |below: u64| {
        state = state.wrapping_mul(6364136223846793005).wrapping_add(1442695040888963407);
        (state >> 33) % below
    };
    let names = ["a", "b", "c", "d", "e", "f"];
    let mut text = format!("options: {}\nstandard: {}\n", names.join(" "), names[next(6) as usize]);
    text += &wish(next(2) == 0, names[next(6) as usize]);
    for _ in 0..1 + number % 6 {
        let start = next(6);
        let entries: Vec<String> = (0..2 + next(2))
            .map(|i| {
                let sign = if next(2) == 0 { "" } else { "!" };
                format!("{sign}{}", names[((start + i) % 6) as usize])
            })
            .collect();
        text += &format!("{}\n", entries.join(" | "));
    }
    text
}
