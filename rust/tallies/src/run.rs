//! A watched run of the engine.

use crate::blocks::words;
use crate::change::Seen;
use crate::engine::answer::Answer;
use crate::engine::rows::clause::{Assignment, Clause};
use crate::engine::rows::records::sequent_at;
use crate::engine::rows::state::Env;
use crate::engine::rows::table::clause_at;
use crate::engine::search::run::run as run_engine;
use crate::tell;
use port::{Decisions, Ending, Outcome, Record, Rule, CAN, CANNOT};

/// Places for records.
const RECORDS: usize = 64;

/// What the tables hold before a run.
const RUBBISH: u64 = 0xa5a5_5a5a_a5a5_5a5a;

/// A run: its outcome, what the watcher saw, and on how many second sides it ended.
#[derive(Clone, Debug)]
pub struct Run {
    pub outcome: Outcome,
    pub seen: Seen,
    pub second_sides: u32,
}

/// Runs the engine on rules over so many options, which are the book's and then the order's.
///
/// # Panics
/// At the first difference that the watcher sees, with the difference in words, and where the engine
/// itself panics.
pub fn run(options: u32, rules: &[Rule], places: usize, allowance: u32) -> Run {
    let given = rules.len();
    let capacity = given + places;
    let (mut t, mut q) = (vec![RUBBISH; 2 * capacity], vec![RUBBISH; words(capacity)]);
    let mut rs = [RUBBISH; 3 * RECORDS];
    for (i, rule) in rules.iter().enumerate() {
        (t[2 * i], t[2 * i + 1]) = (rule.fitted, rule.left_out);
    }
    tell::begin(if options == 64 { u64::MAX } else { (1 << options) - 1 });
    let limits = Env { vars: options, allowance, capacity };
    let (ending, tally) = match run_engine(&mut t, &mut q, &mut rs, limits, given) {
        Answer::Can(tally) => (CAN, tally),
        Answer::Cannot(tally) => (CANNOT, tally),
        Answer::Stopped(stop, tally) => (Ending::Stopped(stop.into()), tally),
        Answer::Refused(refusal) => panic!("the engine refuses: {refusal:?}"),
    };
    let outcome = Outcome {
        ending,
        branchings: tally.branchings,
        derived: (0..tally.derived).map(|i| clause_at(&t, given + i).into()).collect(),
        records: (0..tally.records).map(|i| record_at(&rs, i)).collect(),
    };
    // The records of "cannot" are others than those at which it was reached.
    let last = outcome.records.last().copied().unwrap_or_default();
    let struck = (ending != CANNOT).then_some(last.struck);
    let (seen, second_sides) = tell::end(&t, &q, given + tally.derived, struck);
    Run { outcome, seen, second_sides }
}

fn record_at(rs: &[u64], i: usize) -> Record {
    let record = sequent_at(rs, i);
    let decisions = Decisions { decided: record.decided, fitted: record.trues };
    Record { decisions, struck: record.redundant }
}

impl From<Clause> for Rule {
    fn from(clause: Clause) -> Rule {
        Rule { fitted: clause.pos, left_out: clause.neg }
    }
}

impl From<Assignment> for Decisions {
    fn from(decisions: Assignment) -> Decisions {
        Decisions { decided: decisions.decided, fitted: decisions.trues }
    }
}

#[cfg(test)]
mod tests {
    use super::*;
    use crate::change::{KINDS, NAMES};
    use crate::engine::rows::tallies::{decide, restrike, start, strike, unstrike};
    use port::{check, Order, Places, Request};

    /// A book of three options that can be built, and one of two that cannot.
    const Q: &[(u64, u64)] = &[(3, 0), (4, 1), (0, 6)];
    const W: &[(u64, u64)] = &[(3, 0), (2, 1), (1, 2), (0, 3)];

    /// Rules over so many options, places, branchings, and the ending.
    type Small = (&'static [(u64, u64)], u32, usize, u32, Ending);

    const RUNS: [Small; 8] = [
        (&[], 0, 0, 0, CAN),
        (&[(0, 0)], 3, 0, 0, CANNOT),
        (Q, 3, 0, 1, CAN),
        (W, 2, 3, 3, CANNOT),
        (W, 2, 3, 0, Ending::Stopped(10)),
        (W, 2, 3, 2, Ending::Stopped(10)),
        (W, 2, 0, 3, Ending::Stopped(11)),
        (W, 2, 2, 3, Ending::Stopped(11)),
    ];

    /// The port's outcome.
    fn due(options: u32, rules: &[Rule], places: usize, allowance: u32) -> Outcome {
        let mut book = vec![options as u8, rules.len() as u8, 0];
        rules.iter().for_each(|rule| book.extend(rule.fitted.to_le_bytes()));
        rules.iter().for_each(|rule| book.extend(rule.left_out.to_le_bytes()));
        let places = Places::equal(places, RECORDS);
        check(&Request { book: &book, order: Order::default(), places, allowance })
    }

    #[test]
    fn all_changes_and_all_endings_are_seen_and_the_outcomes_are_the_ports() {
        let (mut seen, mut on_second_sides) = (Seen::default(), 0);
        for (rules, options, places, allowance, ending) in RUNS {
            let rules: Vec<Rule> =
                rules.iter().map(|&(fitted, left_out)| Rule { fitted, left_out }).collect();
            let run = run(options, &rules, places, allowance);
            assert_eq!(run.outcome, due(options, &rules, places, allowance));
            assert_eq!(run.outcome.ending, ending);
            seen.add(run.seen);
            on_second_sides += run.second_sides;
        }
        for (name, count) in NAMES.iter().zip(seen.changes) {
            assert!(count > 0, "no `{name}` in {seen:?}");
        }
        assert_eq!(seen.changes[0], RUNS.len());
        assert!(on_second_sides > 0);
    }

    #[test]
    fn a_change_within_another_is_told_with_it() {
        let (t, mut q) = ([3, 0, 1, 2], [RUBBISH; 131]);
        tell::begin(7);
        start(&t, &mut q, 2);
        assert!(strike(&mut q, 2, 2));
        assert!(!strike(&mut q, 2, 1));
        unstrike(&mut q, 2, 3, 4);
        unstrike(&mut q, 2, 4, 4);
        restrike(&mut q, 2, 7);
        let (seen, _) = tell::end(&t, &q, 2, Some(7));
        let due: [usize; KINDS] = [1, 0, 0, 0, 2, 1, 2, 0];
        assert_eq!((seen.changes, seen.words), (due, 7 * (2 + 67)));
    }

    /// Two rules, of which one word is wrong before option 3 is decided, which none of them names.
    fn decide_with(word: usize, wrong: u64) {
        let (t, mut q) = ([3, 0, 1, 2], [RUBBISH; 131]);
        tell::begin(7);
        start(&t, &mut q, 2);
        q[word] ^= wrong;
        decide(&t, &mut q, 2, 4, true);
    }

    #[test]
    #[should_panic(expected = "rule 1 (from 0), Rule { fitted: 1, left_out: 2 }: the word of its")]
    fn a_wrong_word_of_the_engine_is_told() {
        decide_with(1, 2);
    }

    #[test]
    #[should_panic(
        expected = "rule 1 (from 0), Rule { fitted: 1, left_out: 2 }: its bit in the row"
    )]
    fn a_wrong_bit_of_the_engine_is_told() {
        decide_with(64 + 4, 2);
    }

    #[test]
    #[should_panic(
        expected = "rule 2 (from 0), which does not exist: its bit in the row `in play`"
    )]
    fn a_bit_of_the_engine_beyond_the_last_rule_is_told() {
        decide_with(64 + 1, 4);
    }

    #[test]
    #[should_panic(expected = "Decide(4, true) does not fit: a run starts once")]
    fn a_change_of_the_engine_that_does_not_fit_is_told() {
        tell::begin(7);
        decide(&[3, 0], &mut [0; 131], 1, 4, true);
    }
}
