//! Books of all rules that name every option, in any sequence, with an empty order: the checker under test must say
//! `cannot` with exactly 2^n - 1 branchings and as many derived rules, and must stop where it has one fewer of either.
//! These numbers are worked out here. Each outcome is also the port's, and the verdict an outside solver's.

use crate::differential::Outside;
use crate::question::{first_difference, Check, Question};
use crate::random::Random;
use crate::under_test::UnderTest;
use optbook::bytes::{book_bytes, input_bytes};
use optbook::worst::{all_rules, needs, MOST_OPTIONS};
use optbook::{Book, Order};
use port::Places;
use std::collections::BTreeMap;

/// At least so many random sequences of each number of options, and one for so many books.
const LEAST: usize = 2;
const BOOKS: usize = 500;

/// What was compared: the books by their number of options, and the outcomes by their first words.
#[derive(Debug, Default)]
pub struct Tally {
    books: BTreeMap<usize, usize>,
    endings: BTreeMap<String, usize>,
}

/// So many random sequences of each number of options go with so many books.
pub fn beside(books: usize) -> usize {
    LEAST.max(books / BOOKS)
}

/// Runs the books of every number of options, in the sequence in which they are made, the other way round, and in so
/// many random ones, through these checkers in turn; the first difference ends it and is told in words. Checkers that
/// take no other limits than the program's are asked with these, and such that take no check are not asked.
pub fn run(
    tested: &mut [Box<dyn UnderTest>],
    outside: Outside,
    seed: u64,
    sequences: usize,
) -> Result<Option<Tally>, String> {
    run_up_to(MOST_OPTIONS, tested, outside, seed, sequences)
}

/// The run with books of up to so many options.
fn run_up_to(
    most: usize,
    tested: &mut [Box<dyn UnderTest>],
    outside: Outside,
    seed: u64,
    sequences: usize,
) -> Result<Option<Tally>, String> {
    if !tested.iter().all(|checker| checker.takes(&of_program(&Book::default()).into())) {
        return Ok(None);
    }
    let mut random = Random::new(seed);
    let mut tally = Tally::default();
    for options in 1..=most {
        for (number, book) in arranged(&mut random, options, sequences).into_iter().enumerate() {
            if number == 0 && outside(Order::default(), &book)? {
                return Err(format!("the outside solver builds all rules of {options} options"));
            }
            let checker = tested[number % tested.len()].as_mut();
            for check in checks(&book) {
                compare(checker, options, &check, &mut tally).map_err(|difference| {
                    format!("all rules of {options} options, sequence {number} of seed {seed}: {difference}\n{}", check.told())
                })?;
            }
            *tally.books.entry(options).or_default() += 1;
        }
    }
    Ok(Some(tally))
}

/// All rules of so many options: in the sequence in which they are made, the other way round, and in random ones.
fn arranged(random: &mut Random, options: usize, sequences: usize) -> Vec<Book> {
    let made = all_rules(options);
    let mut backwards = made.clone();
    backwards.rules.reverse();
    let shuffled = (0..sequences).map(|_| {
        let mut book = made.clone();
        random.shuffle(&mut book.rules);
        book
    });
    let shuffled: Vec<Book> = shuffled.collect();
    [made, backwards].into_iter().chain(shuffled).collect()
}

fn of_program(book: &Book) -> Check {
    Check::of_program(input_bytes(Order::default(), &book_bytes(book)))
}

/// A check with the program's limits, with exactly what is needed, with one fewer of either, and of both.
fn checks(book: &Book) -> Vec<Check> {
    let check = of_program(book);
    let needs = needs(book.options);
    let limits = [(needs, needs), (needs - 1, needs), (needs, needs - 1), (needs - 1, needs - 1)];
    let others: Vec<Check> = limits
        .map(|(branchings, places)| check.with_limits(Places::equal(places, 64), branchings as u32))
        .to_vec();
    [vec![check], others].concat()
}

/// Compares one check, if the checker takes it, and counts it.
fn compare(
    tested: &mut dyn UnderTest,
    options: usize,
    check: &Check,
    tally: &mut Tally,
) -> Result<(), String> {
    let question = Question::from(check.clone());
    if !tested.takes(&question) {
        return Ok(());
    }
    let printed = tested.printed(&question)?;
    let line = printed.lines().next().unwrap_or_default();
    if !is_due(line, options, check) {
        return Err(format!("{} says `{line}`, which is not due", tested.name()));
    }
    let due = check.port_outcome().to_string();
    if printed != due {
        let line = first_difference(&printed, &due);
        return Err(format!("the outcomes differ: {}'s {line}", tested.name()));
    }
    let ending = line.split(' ').take(2).collect::<Vec<_>>().join(" ");
    *tally.endings.entry(ending).or_default() += 1;
    Ok(())
}

/// The first line of the outcome is one that the check may have.
fn is_due(line: &str, options: usize, check: &Check) -> bool {
    let needs = needs(options);
    let (allowance, places) = (check.allowance as usize, check.places.derived[0]);
    let stops_on_branchings = line.starts_with(&format!("stopped 10 {allowance} "));
    let counts: Vec<&str> = line.split(' ').skip(2).collect();
    let stops_on_places =
        line.starts_with("stopped 11 ") && counts.get(1) == Some(&places.to_string().as_str());
    match (needs <= allowance, needs <= places) {
        (true, true) => line == format!("cannot 0 {needs} {needs} 1"),
        (false, true) => stops_on_branchings,
        (true, false) => stops_on_places,
        (false, false) => stops_on_branchings || stops_on_places,
    }
}

impl Tally {
    /// So many books of up to so many options, and of which endings.
    pub fn told(&self) -> String {
        let books: usize = self.books.values().sum();
        let most = self.books.keys().max().copied().unwrap_or(0);
        let endings: Vec<String> =
            self.endings.iter().map(|(ending, count)| format!("{ending} {count}")).collect();
        format!(
            "{:<20} {books:>6}   1 to {most} options, each cannot with 2^n - 1 of both: {}\n",
            "worst books",
            endings.join(", ")
        )
    }
}

#[cfg(test)]
mod tests {
    use super::*;
    use crate::under_test::{Port, Program, Says};

    /// Enough to see every ending.
    const MOST: usize = 6;

    /// A checker that changes what the port prints.
    struct Changed(fn(&Check) -> String);

    impl UnderTest for Changed {
        fn name(&self) -> String {
            "changed".to_string()
        }

        fn takes(&self, question: &Question) -> bool {
            matches!(question, Question::Check(_))
        }

        fn printed(&mut self, question: &Question) -> Result<String, String> {
            match question {
                Question::Check(check) => Ok((self.0)(check)),
                _ => Err("no check".to_string()),
            }
        }
    }

    fn run_with(tested: impl UnderTest + 'static) -> Result<Option<Tally>, String> {
        run_up_to(MOST, &mut [Box::new(tested)], &|_, _| Ok(false), 1, LEAST)
    }

    fn due(line: &str, allowance: u32, places: usize) -> bool {
        let check = of_program(&all_rules(3)).with_limits(Places::equal(places, 64), allowance);
        is_due(line, 3, &check)
    }

    #[test]
    fn the_port_passes_and_every_ending_is_seen() {
        let tally = run_with(Port).unwrap().unwrap();
        assert!((1..=MOST).all(|options| tally.books[&options] == 2 + LEAST));
        let told = tally.told();
        let due = "worst books              24   1 to 6 options, each cannot with 2^n - 1 of both: cannot 0 48, ";
        assert!(told.starts_with(due), "{told}");
        assert!(told.contains("stopped 10 ") && told.contains("stopped 11 "), "{told}");
    }

    #[test]
    fn the_sequences_are_of_the_same_rules_and_differ() {
        let books = arranged(&mut Random::new(1), 6, 3);
        let sorted = |book: &Book| {
            let mut rules: Vec<_> = book.rules.iter().map(|r| (r.fitted, r.left_out)).collect();
            rules.sort();
            rules
        };
        assert!(books.iter().all(|book| sorted(book) == sorted(&books[0])));
        assert!((0..5).all(|i| (0..i).all(|j| books[i].rules != books[j].rules)));
    }

    #[test]
    fn only_the_exact_counts_are_due() {
        assert!(due("cannot 0 7 7 1", 7, 7) && due("cannot 0 7 7 1", 1_000_000, 2048));
        for line in [
            "cannot 0 6 7 1",
            "cannot 0 7 6 1",
            "cannot 0 8 7 1",
            "can 0 7 7 1",
            "",
            "cannot 0 7 7 0",
        ] {
            assert!(!due(line, 7, 7), "{line}");
        }
        assert!(due("stopped 10 6 4 0", 6, 7) && !due("stopped 10 5 4 0", 6, 7));
        assert!(!due("stopped 11 6 7 0", 6, 7) && !due("cannot 0 6 6 1", 6, 7));
        assert!(due("stopped 11 7 6 1", 7, 6) && !due("stopped 11 6 7 1", 7, 6));
        assert!(!due("stopped 10 7 6 0", 7, 6));
        assert!(
            due("stopped 10 6 4 0", 6, 6)
                && due("stopped 11 7 6 1", 6, 6)
                && !due("cannot 0 6 6 1", 6, 6)
        );
    }

    #[test]
    fn wrong_checkers_are_found() {
        // One derived rule is not counted, and not told.
        let fewer = |check: &Check| {
            let mut outcome = check.port_outcome();
            outcome.derived.pop();
            outcome.to_string()
        };
        assert!(run_with(Changed(fewer)).unwrap_err().contains("which is not due"));
        // The counts of the steps where an empty allowance is one of one branching.
        let more = |check: &Check| {
            let allowance = check.allowance.max(1);
            check.with_limits(check.places, allowance).port_outcome().to_string()
        };
        assert!(run_with(Changed(more)).unwrap_err().contains("all rules of 1 options"));
        assert!(run_with(Says("can 0 0 0 0\n")).is_err());
        // A record differs, where the first line is due.
        let record = |check: &Check| {
            let mut outcome = check.port_outcome();
            if let Some(record) = outcome.records.last_mut() {
                record.struck ^= 1;
            }
            outcome.to_string()
        };
        assert!(run_with(Changed(record)).unwrap_err().contains("the outcomes differ"));
    }

    #[test]
    fn an_outside_solver_that_disagrees_ends_the_run() {
        let told = run(&mut [Box::new(Port)], &|_, _| Ok(true), 1, LEAST).unwrap_err();
        assert_eq!(told, "the outside solver builds all rules of 1 options");
    }

    #[test]
    fn a_program_is_asked_with_its_own_limits() {
        let program = Program { path: "cat".to_string(), page: None };
        let asked =
            checks(&all_rules(2)).into_iter().filter(|check| program.takes(&check.clone().into()));
        assert_eq!(asked.count(), 1);
    }
}
