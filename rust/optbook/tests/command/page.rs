//! The verb `page`, through the proved library.

use crate::run::{optbook, CAN, PLANT};
use optbook::text::numbered_names;

const CANNOT: &str = "examples/plant_cannot.order";

/// The page of a text, and the status.
fn page(text: &str, flags: &[&str]) -> (String, i32) {
    let ended = optbook(&[&["page", "-"], flags].concat(), text.as_bytes());
    assert_eq!(ended.said, "");
    (ended.text().to_string(), ended.status)
}

/// Tunnel, twin_header, large_blower and scrubber are the options 3, 5, 7 and 9.
#[test]
fn the_example_of_the_help_is_a_page() {
    let example = "optbook page examples/plant.book examples/plant_cannot.order";
    let help = optbook(&["page", "--help"], b"");
    assert!(help.text().contains(&format!("\n  {example}\n")), "{}", help.text());
    let words: Vec<&str> = example.split(' ').skip(1).collect();
    let ended = optbook(&words, b"");
    let due = [
        "cannot             0         4         4\n",
        "   1 -7                                 \n",
        "   2 -5                                 \n",
        "   3 -3                                 \n",
        "   4 none                               \n",
    ];
    assert_eq!((ended.text(), ended.status), (due.concat().as_str(), 1));
}

/// What `check` tells of the same order: the counts on its second line.
#[test]
fn a_page_has_the_counts_and_the_status_of_the_check() {
    for order in [CAN, CANNOT] {
        let (page, check) =
            (optbook(&["page", PLANT, order], b""), optbook(&["check", PLANT, order], b""));
        assert_eq!(page.status, check.status);
        let line = page.text().lines().next().unwrap();
        let fields: Vec<&str> = line.split_whitespace().collect();
        let due = format!("branchings {}, derived rules {}, records ", fields[2], fields[3]);
        let counts = check.text().lines().nth(1).unwrap();
        assert!(counts.starts_with(&due), "{counts}, {line}");
        let derived = check.text().lines().filter(|line| line.starts_with("derived rule: "));
        assert_eq!(page.printed.len(), 41 * (1 + derived.count()));
    }
}

#[test]
fn the_marked_book_w_has_its_page() {
    let due = [
        "cannot             0         3         3\n",
        "   1 1                                  \n",
        "   2 -1                                 \n",
        "   3 none                               \n",
    ];
    let book = "options: a b\na | b\nb | !a\na | !b\n!a | !b\n";
    assert_eq!(page(book, &[]), (due.concat(), 1));
    assert_eq!(page(book, &["--allowance", "3"]), (due.concat(), 1));
    let stopped = "stopped           10         2         1\n";
    assert_eq!(page(book, &["--allowance", "2"]), (format!("{stopped}{}", due[1]), 3));
    let at_once = "stopped           10         0         0\n";
    assert_eq!(page(book, &["--allowance", "0"]), (at_once.to_string(), 3));
}

#[test]
fn a_standard_option_is_taken_as_wanted_unless_the_order_is_without_it() {
    let book = "options: a\n!a\nstandard: a\n";
    let cannot =
        "cannot             0         1         1\n   1 none                               \n";
    assert_eq!(page(book, &[]), (cannot.to_string(), 1));
    let can = "can                0         0         0\n";
    assert_eq!(page(&format!("{book}without: a\n"), &[]), (can.to_string(), 0));
}

/// The last option is free, and each of the others is wanted or unwanted so that two rules are left of
/// it alone. They give the rule of all others, and then each is dropped in turn, the last first.
#[test]
fn a_rule_of_35_characters_is_shown_and_one_of_36_is_counted() {
    let first_rule = |options: usize, wanted: &str| {
        let names = numbered_names(options + 1);
        let (free, others) = names.split_last().unwrap();
        let is_wanted = |name: &&String| name.as_str() == wanted;
        let entry = |name| if is_wanted(&name) { format!("!{name}") } else { name.clone() };
        let entries = others.iter().map(entry).collect::<Vec<_>>().join(" | ");
        let without: Vec<&str> =
            others.iter().filter(|name| !is_wanted(name)).map(String::as_str).collect();
        let book = format!(
            "options: {}\n{entries} | {free}\n{entries} | !{free}\nwant: {wanted}\nwithout: {}\n",
            names.join(" "),
            without.join(" ")
        );
        let (text, status) = page(&book, &[]);
        assert_eq!((text.lines().count(), status), (2 + options, 1));
        text.lines().nth(1).unwrap().to_string()
    };
    assert_eq!(first_rule(15, ""), "   1 1 2 3 4 5 6 7 8 9 10 11 12 13 14 15");
    assert_eq!(first_rule(15, "x4"), "   1 (15 entries)                       ");
    assert_eq!(first_rule(14, "x4"), "   1 1 2 3 -4 5 6 7 8 9 10 11 12 13 14  ");
    assert_eq!(first_rule(63, "x63"), "   1 (63 entries)                       ");
}
