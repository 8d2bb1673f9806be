//! Wrong checkers: such that go by an option's number, and others.

use super::{broken, made, run_made};
use crate::question::Check;
use crate::renumberings::meaning::Sentence;
use crate::renumberings::readings::RIGHT;
use optbook::bytes::{book_bytes, input_bytes, read_input};
use optbook::{Book, Order, Rule};
use port::{Ending, Outcome, CAN};

/// The order and the book of a check.
fn asked(check: &Check) -> (Order, Book) {
    read_input(&check.input).unwrap()
}

/// The port's outcome of the check with another order or book.
fn with(check: &Check, change: fn(&mut Order, &mut Book)) -> Outcome {
    let (mut order, mut book) = asked(check);
    change(&mut order, &mut book);
    Check { input: input_bytes(order, &book_bytes(&book)), ..check.clone() }.port_outcome()
}

/// The option with the highest number, as a set; none of no options.
fn highest(book: &Book) -> u64 {
    optbook::first(book.options) & !optbook::first(book.options.saturating_sub(1))
}

fn forget(order: &mut Order, option: u64) {
    for set in [&mut order.wanted, &mut order.unwanted, &mut order.standard] {
        *set &= !option;
    }
}

fn names(rule: &Rule, options: u64) -> bool {
    (rule.fitted | rule.left_out) & options != 0
}

/// A checker's way to check, by name.
type Wrong = (&'static str, fn(&Check) -> Outcome);

/// Checkers that go by an option's number.
const BY_NUMBER: [Wrong; 8] = [
    ("the verdict is turned over where the first rule names option 1", |check| {
        let (_, book) = asked(check);
        let outcome = check.port_outcome();
        match outcome.ending {
            Ending::Verdict(can) if book.rules.first().is_some_and(|rule| names(rule, 1)) => {
                Outcome { ending: Ending::Verdict(!can), ..outcome }
            }
            _ => outcome,
        }
    }),
    ("`can` where option 1 is unwanted", |check| {
        let outcome = check.port_outcome();
        match outcome.ending {
            Ending::Verdict(_) if asked(check).0.unwanted & 1 != 0 => {
                Outcome { ending: CAN, ..outcome }
            }
            _ => outcome,
        }
    }),
    ("no wish for option 1", |check| with(check, |order, _| forget(order, 1))),
    ("no wish for the lowest option that has one", |check| {
        with(check, |order, _| {
            let wishes = order.wanted | order.unwanted | order.standard;
            forget(order, wishes & wishes.wrapping_neg());
        })
    }),
    ("no wish for the highest option", |check| {
        with(check, |order, book| forget(order, highest(book)))
    }),
    ("no rule that names the highest option", |check| {
        with(check, |_, book| {
            let highest = highest(book);
            book.rules.retain(|rule| !names(rule, highest));
        })
    }),
    ("no rule that names option 64", |check| {
        with(check, |_, book| book.rules.retain(|rule| !names(rule, 1 << 63)))
    }),
    ("option 1 is fitted where rules leave it out", |check| {
        with(check, |_, book| {
            for rule in &mut book.rules {
                let Rule { fitted, left_out } = *rule;
                rule.fitted = fitted & !1 | left_out & 1;
                rule.left_out = left_out & !1 | fitted & 1;
            }
        })
    }),
];

#[test]
fn verdicts_that_go_by_a_number_break_the_sentence_on_verdicts() {
    for (name, check) in BY_NUMBER {
        assert_eq!(broken(check, RIGHT), [Sentence::Verdicts], "{name}");
    }
}

#[test]
fn verdicts_that_go_by_a_number_are_not_the_ports() {
    for (name, check) in BY_NUMBER {
        let told = run_made(made(check), RIGHT).unwrap_err();
        let (_, line) = told.split_once(": the outcomes ").expect(&told);
        assert!(line.contains("ere differ: made's line "), "{name}: {told}");
    }
}

/// It says the same of a book and of its image.
#[test]
fn a_checker_that_always_says_can_is_seen_by_the_port_alone() {
    let can = |_: &Check| Outcome { ending: CAN, ..Outcome::refused(0) };
    assert_eq!(broken(can, RIGHT), []);
    let told = run_made(made(can), RIGHT).unwrap_err();
    assert!(
        told.contains(": the outcomes here differ: made's line 1 is `can 0 0 0 0`, "),
        "{told}"
    );
}

#[test]
fn a_refusal_is_told() {
    let refuses = |check: &Check| {
        let (order, book) = asked(check);
        match order.unwanted & highest(&book) {
            0 => check.port_outcome(),
            _ => Outcome::refused(7),
        }
    };
    assert_eq!(broken(refuses, RIGHT), [Sentence::Accepted]);
    assert!(run_made(made(refuses), RIGHT).unwrap_err().contains("made's line 1 is `refused 7 "));
}

/// There is a branching more where the order has standard options.
#[test]
fn an_outcome_that_goes_by_the_standard_word_is_told() {
    let more = |check: &Check| {
        let outcome = check.port_outcome();
        let more = u32::from(asked(check).0.standard != 0);
        Outcome { branchings: outcome.branchings + more, ..outcome }
    };
    assert_eq!(broken(more, RIGHT), [Sentence::Unchanged]);
}

#[test]
fn a_difference_has_both_questions() {
    let (_, check) = BY_NUMBER[2];
    let told = run_made(made(check), RIGHT).unwrap_err();
    let lines: Vec<&str> = told.lines().collect();
    assert!(lines[0].starts_with("renumbered book "), "{told}");
    assert!(lines[0].contains(" of seed 3: the outcomes "), "{told}");
    let starts =
        ["new numbers of the options: ", "reversed, by the old numbers: ", "here: allowance "];
    for (line, start) in lines[1..].iter().zip(starts) {
        assert!(line.starts_with(start), "{told}");
    }
    assert!(lines[6].starts_with("there: allowance ") && lines.len() == 9, "{told}");
}
