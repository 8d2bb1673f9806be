//! Books through the test build of the engine (the package `tallies`), which counts the tallies of
//! every rule and the rows of the index anew after each change. Each outcome must be the port's.

use crate::allowances;
use crate::kinds;
use crate::question::{first_difference, Check};
use crate::random::Random;
use crate::shapes;
use crate::small::SMALL;
use ::tallies::{Run, Seen, NAMES};
use optbook::bytes::{book_bytes, input_bytes, read_input};
use optbook::{option, Book, Order, OPTIONS};
use port::{Ending, Outcome, Places, Rule, CAN, CANNOT};
use std::cell::RefCell;
use std::fmt::Write;
use std::{panic, process};

/// One in so many books is of the largest size.
const LARGEST: usize = 200;

/// The branchings after which a book's run is cut short, and those of one in so many books.
const BRANCHINGS: u32 = 32;
const LONG: usize = 21;
const LONG_BRANCHINGS: u32 = 500;

/// Each book is also run with every smaller allowance, and every smaller number of places, below this.
const FEW: usize = 4;

/// The endings of a run, by name.
const ENDINGS: [(Ending, &str); 4] = [
    (CAN, "can"),
    (CANNOT, "cannot"),
    (Ending::Stopped(10), "stopped 10"),
    (Ending::Stopped(11), "stopped 11"),
];

thread_local! {
    /// The name of the book at hand, and the check that is asked of it.
    static AT_HAND: RefCell<Option<(String, Check)>> = const { RefCell::new(None) };
}

/// Runs of one ending: how many, how many of them ended on a second side, and on how many second
/// sides at most, one below the other.
#[derive(Clone, Copy, Debug, Default, PartialEq, Eq)]
struct Ended {
    runs: usize,
    on_second_sides: usize,
    deepest: u32,
}

/// What was run and compared.
#[derive(Debug, Default)]
pub struct Tally {
    books: usize,
    seen: Seen,
    endings: [Ended; ENDINGS.len()],
}

/// Runs the small books with every pair of limits, and this many generated books that are not refused.
/// A difference in an outcome ends it and is told in words, as is a kind of change or an ending that
/// was never seen. At a difference in the tallies or the index it panics.
pub fn run(seed: u64, books: usize) -> Result<Tally, String> {
    let mut tally = Tally::default();
    for small in &SMALL {
        let ample = allowances::check(small);
        let whole = ample.port_outcome();
        for allowance in 0..whole.branchings + 2 {
            for places in 0..whole.derived.len() + 2 {
                compare(small.name, &ample, (allowance, places), &mut tally)?;
            }
        }
    }
    let accepted = (0..).map(|number| (number, check(seed, number)));
    let accepted = accepted.filter(|(_, check)| read_input(&check.input).is_ok());
    for (number, check) in accepted.take(books) {
        let name = format!("book {number} of seed {seed}");
        for limits in limits(&check.port_outcome()) {
            compare(&name, &check, limits, &mut tally)?;
        }
        tally.books += 1;
    }
    tally.has_all()?;
    Ok(tally)
}

/// Where something panics, tells which book is at hand and ends the program.
pub fn tell_the_book_at_a_panic() {
    panic::set_hook(Box::new(|panicked| {
        AT_HAND.with_borrow(|at_hand| match at_hand {
            Some((name, check)) => {
                eprintln!("compare tallies: {name}: {panicked}\n{}", check.told())
            }
            None => eprintln!("compare tallies: {panicked}"),
        });
        process::exit(1);
    }));
}

/// The check of a generated book with the most branchings that its run may have.
fn check(seed: u64, number: usize) -> Check {
    let check = match number % LARGEST == LARGEST / 2 {
        true => largest(seed, number),
        false => kinds::case(seed, number).check,
    };
    let allowance = if number.is_multiple_of(LONG) { LONG_BRANCHINGS } else { BRANCHINGS };
    check.with_limits(check.places, allowance)
}

/// A book of the largest size.
fn largest(seed: u64, number: usize) -> Check {
    let mut random = Random::new(seed ^ (number as u64) << 32);
    let book = shapes::largest(&mut random);
    let order = shapes::order(&mut random, book.options, 16);
    Check::of_program(input_bytes(order, &book_bytes(&book)))
}

/// Branchings and places for a run that needs so many: exactly enough, one too few, half, and few.
fn limits(whole: &Outcome) -> Vec<(u32, usize)> {
    let (branchings, places) = (whole.branchings as usize, whole.derived.len());
    let fewer =
        |all: usize| (0..all).filter(move |&some| some < FEW || some == all / 2 || some + 1 == all);
    let mut limits = vec![(whole.branchings, places)];
    limits.extend(fewer(branchings).map(|some| (some as u32, places)));
    limits.extend(fewer(places).map(|some| (whole.branchings, some)));
    limits
}

/// A watched run of a check with these branchings and places, which must end as the port's.
fn compare(
    name: &str,
    check: &Check,
    limits: (u32, usize),
    tally: &mut Tally,
) -> Result<(), String> {
    let (allowance, places) = limits;
    let check = check.with_limits(Places::equal(places, 64), allowance);
    AT_HAND.set(Some((name.to_string(), check.clone())));
    let (run, due) = (watched(&check)?, check.port_outcome());
    if run.outcome != due {
        let line = first_difference(&run.outcome.to_string(), &due.to_string());
        return Err(format!("{name}: {line}\n{}", check.told()));
    }
    tally.add(&run);
    Ok(())
}

/// The run of a check.
fn watched(check: &Check) -> Result<Run, String> {
    let (order, book) = read_input(&check.input)?;
    let rules = rules(order, &book);
    Ok(::tallies::run(book.options as u32, &rules, check.places.derived[0], check.allowance))
}

/// The book's rules and then the completed order's, wanted options first, each the lowest first.
fn rules(order: Order, book: &Book) -> Vec<Rule> {
    let order = order.completed();
    let members = |set: u64| (0..OPTIONS).map(option).filter(move |option| set & option != 0);
    let rules = book.rules.iter().map(|rule| Rule { fitted: rule.fitted, left_out: rule.left_out });
    let wanted = members(order.wanted).map(|fitted| Rule { fitted, left_out: 0 });
    let unwanted = members(order.unwanted).map(|left_out| Rule { fitted: 0, left_out });
    rules.chain(wanted).chain(unwanted).collect()
}

impl Tally {
    fn add(&mut self, run: &Run) {
        self.seen.add(run.seen);
        let ending = ENDINGS.iter().position(|(ending, _)| *ending == run.outcome.ending);
        let ended = &mut self.endings[ending.expect("a known ending")];
        ended.runs += 1;
        ended.on_second_sides += usize::from(run.second_sides > 0);
        ended.deepest = ended.deepest.max(run.second_sides);
    }

    /// Every kind of change and every ending was seen, and both stops on a second side.
    fn has_all(&self) -> Result<(), String> {
        for (name, count) in NAMES.iter().zip(self.seen.changes) {
            if count == 0 {
                return Err(format!("no change `{name}` was seen"));
            }
        }
        for ((ending, name), ended) in ENDINGS.iter().zip(self.endings) {
            let is_stop = matches!(ending, Ending::Stopped(_));
            if ended.runs == 0 || is_stop && ended.on_second_sides == 0 {
                return Err(format!("no `{name}` was seen, or none on a second side"));
            }
        }
        Ok(())
    }

    /// So many changes of each kind, points at which the engine said what it goes by, and endings.
    pub fn told(&self) -> String {
        let mut text = String::new();
        for (name, count) in NAMES.iter().zip(self.seen.changes) {
            let _ = writeln!(text, "{name:<20} {count:>9}");
        }
        let _ = writeln!(text, "{:<20} {:>9}", "points compared", self.seen.points);
        for ((_, name), Ended { runs, on_second_sides, deepest }) in
            ENDINGS.iter().zip(self.endings)
        {
            let _ = writeln!(
                text,
                "{name:<20} {runs:>9}   on a second side {on_second_sides}, on {deepest} at most"
            );
        }
        text
    }

    /// The last line, without what follows on the time.
    pub fn summary(&self, seed: u64) -> String {
        let runs: usize = self.endings.iter().map(|ended| ended.runs).sum();
        let changes: usize = self.seen.changes.iter().sum();
        format!(
            "{} books of seed {seed} and {} small books, {runs} runs, {changes} changes, {} words of \
             tallies and index compared, no difference",
            self.books,
            SMALL.len(),
            self.seen.words
        )
    }
}

#[cfg(test)]
mod tests {
    use super::*;

    #[test]
    fn the_small_books_and_some_others_differ_nowhere() {
        let tally = run(5, 60).unwrap();
        assert_eq!(tally.books, 60);
        let summary = tally.summary(5);
        assert!(summary.starts_with("60 books of seed 5 and 26 small books, "), "{summary}");
        assert!(
            summary.ends_with(" words of tallies and index compared, no difference"),
            "{summary}"
        );
        assert_eq!(tally.told().lines().count(), NAMES.len() + 1 + ENDINGS.len());
    }

    #[test]
    fn what_was_not_seen_is_named() {
        assert_eq!(Tally::default().has_all().unwrap_err(), "no change `start` was seen");
        let mut tally = run(5, 0).unwrap();
        tally.seen.changes[2] = 0;
        assert_eq!(tally.has_all().unwrap_err(), "no change `turn` was seen");
        let mut tally = run(5, 0).unwrap();
        tally.endings[3].on_second_sides = 0;
        let due = "no `stopped 11` was seen, or none on a second side";
        assert_eq!(tally.has_all().unwrap_err(), due);
    }

    #[test]
    fn limits_are_enough_one_too_few_half_and_few() {
        let mut whole = check(1, 0).port_outcome();
        whole.branchings = 20;
        whole.derived = vec![Rule { fitted: 1, left_out: 0 }; 2];
        let due = [(20, 2), (0, 2), (1, 2), (2, 2), (3, 2), (10, 2), (19, 2), (20, 0), (20, 1)];
        assert_eq!(limits(&whole), due);
    }

    #[test]
    fn the_orders_rules_stand_after_the_books() {
        let book = Book { options: 64, rules: vec![optbook::Rule { fitted: 6, left_out: 9 }] };
        let order = Order { wanted: 1 << 63 | 2, unwanted: 5, standard: 12 };
        let rules: Vec<(u64, u64)> =
            rules(order, &book).iter().map(|rule| (rule.fitted, rule.left_out)).collect();
        assert_eq!(rules, [(6, 9), (2, 0), (8, 0), (1 << 63, 0), (0, 1), (0, 4)]);
    }

    #[test]
    fn books_of_the_largest_size_and_long_runs_come() {
        let (_, book) = read_input(&check(1, 100).input).unwrap();
        assert_eq!((book.options, book.rules.len()), (64, 1024));
        assert_eq!([check(1, 41).allowance, check(1, 42).allowance], [BRANCHINGS, LONG_BRANCHINGS]);
    }
}
