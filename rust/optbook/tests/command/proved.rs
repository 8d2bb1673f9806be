//! The verbs that check, through the proved library.

use crate::run::{optbook, CAN, PLANT};
use optbook::sheet::Sheet;

const CANNOT: &str = "examples/plant_cannot.order";

#[test]
fn a_check_tells_the_verdict_the_counts_and_what_was_found() {
    let ended = optbook(&["check", PLANT, CAN], b"");
    let mut lines = ended.text().lines();
    let verdict = "can be built: some choice of options keeps every rule and wish";
    assert_eq!((lines.next(), ended.status), (Some(verdict), 0));
    assert!(lines.next().unwrap().starts_with("branchings "));
    assert!(lines.all(|line| line.starts_with("derived rule: ") || line.starts_with("record: ")));

    let ended = optbook(&["check", PLANT, CANNOT], b"");
    let verdict = "cannot be built: no choice of options keeps every rule and wish\n";
    assert!(ended.text().starts_with(verdict), "{}", ended.text());
    assert_eq!(ended.status, 1);
}

#[test]
fn the_marked_book_w_has_its_derived_rules_and_its_record() {
    let ended = optbook(&["check", "-"], b"options: a b\na | b\nb | !a\na | !b\n!a | !b\n");
    let due = "cannot be built: no choice of options keeps every rule and wish\n\
               branchings 3, derived rules 3, records 1\n\
               derived rule: a\nderived rule: !a\nderived rule: false\n\
               record: fitted (none); left out (none); struck a b\n";
    assert_eq!((ended.text(), ended.status), (due, 1));
}

#[test]
fn a_standard_option_is_taken_as_wanted_unless_the_order_is_without_it() {
    let status = |order: &str| {
        let text = format!("options: a b\n!a | !b\nstandard: a\n{order}");
        optbook(&["check", "-"], text.as_bytes()).status
    };
    assert_eq!([status(""), status("want: a\n"), status("without: a\n")], [0, 0, 0]);
    assert_eq!([status("want: b\n"), status("want: a b\n")], [1, 1]);
    assert_eq!([status("want: b\nwithout: a\n"), status("standard: b\nwithout: a\n")], [0, 0]);
    assert_eq!(status("standard: b\n"), 1);
}

/// Refusal 12 has no text: each standard option is a name of the book.
#[test]
fn every_option_of_a_text_may_be_standard() {
    let names = optbook::text::numbered_names(64).join(" ");
    let text = format!("options: {names}\nx64\nstandard: {names}\n");
    assert_eq!(optbook(&["check", "-"], text.as_bytes()).status, 0);
    let ended = optbook(&["check", "-"], format!("{text}standard: x65\n").as_bytes());
    assert_eq!(ended.status, 65, "{}", ended.said);
}

#[test]
fn limits_stop_or_are_refused() {
    let book = b"options: a\na\n!a\n";
    let ended = optbook(&["check", "-", "--allowance", "0"], book);
    assert!(ended.text().starts_with("stopped without a verdict, number 10: "), "{}", ended.text());
    assert_eq!(ended.status, 3);
    let ended = optbook(&["check", "--places", "0", "-"], book);
    assert!(ended.text().starts_with("stopped without a verdict, number 11: "), "{}", ended.text());
    assert_eq!(ended.status, 3);
    let ended = optbook(&["check", "-", "--places", "2049"], book);
    assert!(ended.text().starts_with("refused, number 9: "), "{}", ended.text());
    assert_eq!(ended.status, 2);
    assert_eq!(optbook(&["check", "-", "--allowance", "1", "--places", "1"], book).status, 1);
}

#[test]
fn the_plant_that_cannot_be_built_is_explained_with_names_and_lines() {
    let ended = optbook(&["explain", PLANT, CANNOT], b"");
    let due = "# cannot be built: no choice of options keeps all of these\n\
               # without any one of them the others can be kept\n\
               options: tunnel twin_header large_blower scrubber\n\
               !tunnel | twin_header        # examples/plant.book: line 17\n\
               !twin_header | large_blower  # examples/plant.book: line 22\n\
               !large_blower | scrubber     # examples/plant.book: line 27\n\
               want: tunnel                 # examples/plant_cannot.order: line 4\n\
               without: scrubber            # examples/plant_cannot.order: line 5\n";
    assert_eq!((ended.text(), ended.status), (due, 1));
}

/// The explanation is a book that cannot be kept, and each line of it is needed.
#[test]
fn an_explanation_cannot_be_kept_and_each_line_of_it_is_needed() {
    let explanation = optbook(&["explain", PLANT, CANNOT], b"");
    let lines: Vec<&str> = explanation.text().lines().collect();
    assert_eq!(optbook(&["check", "-"], &explanation.printed).status, 1);
    let demands = 3..lines.len();
    assert_eq!(demands.len(), 5);
    for left_out in demands {
        let mut rest = lines.clone();
        rest.remove(left_out);
        let ended = optbook(&["check", "-"], rest.join("\n").as_bytes());
        assert_eq!(ended.status, 0, "{}", lines[left_out]);
    }
}

#[test]
fn where_the_book_alone_cannot_be_kept_no_wish_is_blamed() {
    let book = b"options: a b c\nc\na\n!a | b\n!b\nwant: c\nwithout: b\n";
    let ended = optbook(&["explain", "-"], book);
    let lines: Vec<&str> = ended.text().lines().skip(2).collect();
    let due = [
        "options: a b",
        "a       # standard input: line 3",
        "!a | b  # standard input: line 4",
        "!b      # standard input: line 5",
    ];
    assert_eq!(lines, due);
}

#[test]
fn a_standard_option_is_explained_like_a_wish() {
    let book = b"options: a b c\nstandard: c a\n!a | !b\nwant: b\n";
    let ended = optbook(&["explain", "-"], book);
    let lines: Vec<&str> = ended.text().lines().skip(2).collect();
    let due = [
        "options: a b",
        "standard: a  # standard input: line 2",
        "!a | !b      # standard input: line 3",
        "want: b      # standard input: line 4",
    ];
    assert_eq!((lines.as_slice(), ended.status), (&due[..], 1));
    assert_eq!(optbook(&["check", "-"], &ended.printed).status, 1);
}

/// The order is without the standard option a, so that a plays no part, whatever is left out.
#[test]
fn a_standard_option_that_is_unwanted_is_no_reason() {
    let book = b"options: a b\nstandard: a\n!a\nb\n!b\nwithout: a\n";
    let ended = optbook(&["explain", "-"], book);
    let lines: Vec<&str> = ended.text().lines().skip(2).collect();
    let due = ["options: b", "b   # standard input: line 4", "!b  # standard input: line 5"];
    assert_eq!(lines, due);
}

#[test]
fn an_option_that_is_wanted_and_standard_is_explained_by_its_wish() {
    let ended = optbook(&["explain", "-"], b"options: a\nstandard: a\n!a\nwant: a\n");
    let due = "options: a\n\
               !a       # standard input: line 3\n\
               want: a  # standard input: line 4\n";
    assert!(ended.text().ends_with(due), "{}", ended.text());
}

#[test]
fn an_empty_rule_is_its_own_explanation() {
    let ended = optbook(&["explain", "-"], b"options: a\na\nfalse\nwant: a\n");
    assert!(ended.text().ends_with("options: \nfalse  # standard input: line 3\n"));
    assert_eq!(optbook(&["check", "-"], &ended.printed).status, 1);
}

#[test]
fn what_has_no_reason_is_told_as_a_check_tells_it() {
    let ended = optbook(&["explain", PLANT, CAN], b"");
    let due = "can be built: some choice of options keeps every rule and wish\n";
    assert_eq!((ended.text(), ended.status), (due, 0));
    let book = b"options: a\na\n!a\n";
    let ended = optbook(&["explain", "-", "--allowance", "0"], book);
    assert!(ended.text().starts_with("stopped without a verdict, number 10: "));
    assert_eq!(ended.status, 3);
    assert_eq!(optbook(&["explain", "-", "--places", "2049"], book).status, 2);
}

/// Small books from a running number: what is said of them is what trying all choices shows, and of
/// each explanation every line is needed.
#[test]
fn what_is_said_of_small_books_is_what_all_choices_show() {
    let mut explained = 0;
    for number in 0..60 {
        let text = small_book(number);
        let can = can_be_kept(&text);
        let ended = optbook(&["check", "-"], text.as_bytes());
        assert_eq!(ended.status, if can { 0 } else { 1 }, "{text}");
        if can {
            continue;
        }
        explained += 1;
        let explanation = optbook(&["explain", "-"], text.as_bytes());
        assert!(!can_be_kept(explanation.text()), "{text}");
        let lines: Vec<&str> = explanation.text().lines().collect();
        for left_out in 3..lines.len() {
            let mut rest = lines.clone();
            rest.remove(left_out);
            assert!(can_be_kept(&rest.join("\n")), "{text}\n{}", explanation.text());
        }
    }
    assert!((10..50).contains(&explained), "{explained} of 60 books cannot be kept");
}

fn can_be_kept(text: &str) -> bool {
    let sheet = Sheet::of("text", text).unwrap();
    let (book, order) = (sheet.book(), sheet.order().completed());
    (0..1 << book.options).any(|choice: u64| {
        let wishes = order.wanted & !choice == 0 && order.unwanted & choice == 0;
        wishes && book.rules.iter().all(|rule| rule.is_kept_by(choice))
    })
}

/// A book of five options, a standard one, twelve rules of two or three entries, and two wishes, of
/// which one may be for the standard option.
fn small_book(number: u64) -> String {
    let mut state = number;
    let mut next = |below: u64| {
        state = state.wrapping_mul(6364136223846793005).wrapping_add(1442695040888963407);
        (state >> 33) % below
    };
    let names = ["a", "b", "c", "d", "e"];
    let mut text = format!("options: {}\n", names.join(" "));
    text += &format!("standard: {}\n", names[next(5) as usize]);
    for _ in 0..12 {
        let start = next(5);
        let entries: Vec<String> = (0..2 + next(2))
            .map(|i| {
                let sign = if next(2) == 0 { "" } else { "!" };
                format!("{sign}{}", names[((start + i) % 5) as usize])
            })
            .collect();
        text += &format!("{}\n", entries.join(" | "));
    }
    let wished = next(5);
    text += &format!("want: {}\n", names[wished as usize]);
    text + &format!("without: {}\n", names[((wished + 1 + next(4)) % 5) as usize])
}
