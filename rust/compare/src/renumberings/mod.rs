//! Generated books and orders under other numbers and with reversed names (made.rs): the checker under test is asked
//! for a book and an order and for their image, and where it gives two verdicts they must agree. Each outcome is
//! also the port's. What the image means is held to the book and the order themselves (meaning.rs).

mod made;
mod meaning;
mod readings;
mod sorts;

use crate::question::{first_difference, Check};
use crate::under_test::UnderTest;
use made::{renumbered, Limits, OF_PROGRAM};
use meaning::{Sentence, Sides};
use optbook::{Book, Order};
use readings::{Reading, RIGHT};
use sorts::{Needs, Run, Sort, ENDINGS, SORTS};
use std::collections::BTreeMap;

/// At least so many questions, so that every sort is seen, and one for so many books.
const LEAST: usize = 400;
const BOOKS: usize = 2;

/// So many questions go to one checker before the next one's turn. What is asked comes round in other numbers
/// (made.rs), so each comes to each checker.
const TURN: usize = 5;

/// What was compared: the questions by what came up, and of how many all choices were tried.
#[derive(Debug, Default)]
pub struct Tally {
    questions: usize,
    sorts: BTreeMap<&'static str, usize>,
    tried_all_choices: usize,
}

/// So many questions go with so many books.
pub fn beside(books: usize) -> usize {
    LEAST.max(books / BOOKS)
}

/// Runs this many generated questions through these checkers in turn, which differ in the rubbish in the tables that
/// they are lent; the first difference ends it and is told in words, as is a sort that was never seen. Checkers that
/// take no other limits than the program's are asked with these, and such that take no check are not asked.
pub fn run(
    tested: &mut [Box<dyn UnderTest>],
    seed: u64,
    questions: usize,
) -> Result<Option<Tally>, String> {
    run_reading(tested, RIGHT, seed, questions)
}

/// The run with this reading of a renumbering.
fn run_reading(
    tested: &mut [Box<dyn UnderTest>],
    reading: Reading,
    seed: u64,
    questions: usize,
) -> Result<Option<Tally>, String> {
    let take = |limits: Limits| {
        let question = limits.check(Order::default(), &Book::default()).into();
        tested.iter().all(|checker| checker.takes(&question))
    };
    if !take(OF_PROGRAM) {
        return Ok(None);
    }
    let any_limits = take(Limits { allowance: 3, ..OF_PROGRAM });
    let mut tally = Tally::default();
    for number in 0..questions {
        let mut asked = renumbered(seed, number);
        if !any_limits {
            asked.limits = [OF_PROGRAM; 2];
        }
        let sides = Sides::new(&asked, reading);
        let checker = tested[number / TURN % tested.len()].as_mut();
        compare(checker, &sides, &mut tally).map_err(|difference| {
            format!("renumbered book {number} of seed {seed}: {difference}\n{}", sides.told())
        })?;
    }
    tally.has_all(|needs| match needs {
        Needs::Nothing => true,
        Needs::AnyLimits => any_limits,
    })?;
    Ok(Some(tally))
}

/// Compares both checks of one question, holds them to the sentences, and counts it.
fn compare(tested: &mut dyn UnderTest, sides: &Sides, tally: &mut Tally) -> Result<(), String> {
    let printed = sides.printed(tested)?;
    let outcomes = sides.checks.each_ref().map(Check::port_outcome);
    for (side, (printed, outcome)) in ["here", "there"].iter().zip(printed.iter().zip(&outcomes)) {
        let due = outcome.to_string();
        if *printed != due {
            let line = first_difference(printed, &due);
            return Err(format!("the outcomes {side} differ: {}'s {line}", tested.name()));
        }
    }
    let broken = sides.broken(&printed);
    if !broken.is_empty() {
        let [here, there] = printed.each_ref().map(|said| said.lines().next().unwrap_or_default());
        let words: Vec<&str> = broken.into_iter().map(Sentence::words).collect();
        return Err(format!(
            "{} says `{here}` here and `{there}` there, and this is broken: {}",
            tested.name(),
            words.join("; ")
        ));
    }
    tally.add(&Run { sides, outcomes: &outcomes });
    Ok(())
}

impl Tally {
    fn add(&mut self, run: &Run) {
        self.questions += 1;
        self.tried_all_choices += usize::from(run.sides.is_small());
        for (name, _, _) in ENDINGS.iter().chain(&SORTS).filter(|(_, _, is_such)| is_such(run)) {
            *self.sorts.entry(name).or_default() += 1;
        }
    }

    fn sort(&self, name: &str) -> usize {
        self.sorts.get(name).copied().unwrap_or(0)
    }

    /// Every sort was seen that the checkers take what is needed for.
    fn has_all(&self, take: impl Fn(Needs) -> bool) -> Result<(), String> {
        let mut due = ENDINGS.iter().chain(&SORTS).filter(|(_, needs, _)| take(*needs));
        match due.find(|(name, _, _)| self.sort(name) == 0) {
            Some((name, _, _)) => Err(format!("no renumbered book with `{name}` was seen")),
            None => Ok(()),
        }
    }

    /// So many questions, of which endings and sorts, and of how many all choices were tried.
    pub fn told(&self) -> String {
        let counts = |sorts: &[Sort]| {
            let told = sorts.iter().map(|(name, _, _)| format!("{name} {}", self.sort(name)));
            told.collect::<Vec<String>>().join(", ")
        };
        format!(
            "{:<20} {:>6}   {}\nrenumbered books have: {}\n\
             renumbered books by trying all choices too: {}\n",
            "renumbered books",
            self.questions,
            counts(&ENDINGS),
            counts(&SORTS),
            self.tried_all_choices
        )
    }
}

#[cfg(test)]
mod tests;
