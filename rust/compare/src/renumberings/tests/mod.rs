//! The comparison of renumbered books sees wrong checkers (checkers.rs) and wrong readings of a renumbering
//! (readings.rs); so do the sentences that speak of them, without the port.

mod checkers;
mod readings;

use super::*;
use crate::question::Question;
use crate::under_test::{Port, Program};
use port::Outcome;
use std::collections::BTreeSet;

/// A checker made of a function for a check, and the checks that it takes.
struct Made {
    check: fn(&Check) -> Outcome,
    takes: fn(&Check) -> bool,
}

impl UnderTest for Made {
    fn name(&self) -> String {
        "made".to_string()
    }

    fn takes(&self, question: &Question) -> bool {
        matches!(question, Question::Check(check) if (self.takes)(check))
    }

    fn printed(&mut self, question: &Question) -> Result<String, String> {
        match question {
            Question::Check(check) => Ok((self.check)(check).to_string()),
            _ => Err("no check".to_string()),
        }
    }
}

fn made(check: fn(&Check) -> Outcome) -> Made {
    Made { check, takes: |_| true }
}

fn run_made(made: Made, reading: Reading) -> Result<Option<Tally>, String> {
    run_reading(&mut [Box::new(made)], reading, 3, LEAST)
}

/// The sentences that are broken over a run with this checker and this reading. The port is not asked.
fn broken(check: fn(&Check) -> Outcome, reading: Reading) -> Vec<Sentence> {
    let mut broken = BTreeSet::new();
    for number in 0..LEAST {
        let asked = renumbered(3, number);
        let sides = Sides::new(&asked, reading);
        let printed = sides.printed(&mut made(check)).unwrap();
        broken.extend(sides.broken(&printed));
    }
    broken.into_iter().collect()
}

#[test]
fn every_sort_comes_whatever_the_seed_is() {
    for seed in 1..4 {
        let tally = run(&mut [Box::new(Port), Box::new(Port)], seed, LEAST).unwrap().unwrap();
        let told = tally.told();
        assert!(tally.tried_all_choices > 150, "{told}");
        assert!(told.starts_with("renumbered books        400   both can "), "{told}");
        let endings: usize = ENDINGS.iter().map(|(name, _, _)| tally.sort(name)).sum();
        assert_eq!(endings, LEAST, "{told}");
    }
}

#[test]
fn right_answers_break_no_sentence() {
    assert_eq!(broken(Check::port_outcome, RIGHT), []);
}

#[test]
fn a_sort_that_was_not_seen_is_named() {
    let told = |tally: &Tally| tally.has_all(|_| true).unwrap_err();
    assert_eq!(told(&Tally::default()), "no renumbered book with `both can` was seen");
    let mut tally = run(&mut [Box::new(Port)], 3, LEAST).unwrap().unwrap();
    for (name, _, _) in SORTS.iter().rev().chain(ENDINGS.iter().rev()) {
        tally.sorts.remove(name);
        assert_eq!(told(&tally), format!("no renumbered book with `{name}` was seen"));
    }
}

#[test]
fn a_checker_with_its_own_limits_is_asked_with_these() {
    let takes = Check::is_of_program;
    let check = |check: &Check| {
        assert!(check.is_of_program());
        check.port_outcome()
    };
    let tally = run_made(Made { check, takes }, RIGHT).unwrap().unwrap();
    assert_eq!(tally.questions, LEAST);
    assert!(tally.has_all(|needs| needs == Needs::Nothing).is_ok());
    assert_eq!(tally.sort("a stop at the allowance beside a verdict"), 0);
    assert!(tally.has_all(|needs| needs == Needs::AnyLimits).is_err());
}

#[test]
fn a_program_that_is_missing_is_named() {
    let program = Program { path: "./no-such-program".to_string(), page: None };
    let told = run(&mut [Box::new(program)], 3, LEAST).unwrap_err();
    assert!(told.starts_with("renumbered book 0 of seed 3: ./no-such-program: "), "{told}");
}

#[test]
fn a_checker_that_takes_no_check_is_not_asked() {
    let check = |_: &Check| panic!("it is asked");
    assert!(run_made(Made { check, takes: |_| false }, RIGHT).unwrap().is_none());
}

#[test]
fn renumbered_books_go_with_the_books() {
    assert_eq!([beside(0), beside(800), beside(4000)], [400, 400, 2000]);
}
