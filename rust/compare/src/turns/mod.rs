//! Generated books and orders whose free options are settled in turns, by the checker under test and by the
//! port; the places that are lent are looked at in lent/turns.rs. What an answer means (meaning.rs) is held to
//! the checker's own check of the order, to its turns after the first two choices, and to an outside solver of
//! quantified clauses, where there is one.

mod made;
mod meaning;
mod sorts;

pub use made::turns;
pub use meaning::{quantified, Outside};

use crate::question::{first_difference, forced_name, settled_name, settled_text};
use crate::question::{Settled, Turns};
use crate::under_test::UnderTest;
use meaning::{after_two, by_check, Built};
use sorts::{numbers, Run, SORTS};
use std::collections::BTreeMap;

/// At least so many questions, so that every sort is seen, and one for so many books.
const LEAST: usize = 400;
const BOOKS: usize = 2;

/// The solver is asked about so many questions, the first ones, and about so many of them also after the first
/// two choices.
const SOLVED: usize = 300;
const SOLVED_AFTER_TWO: usize = 30;

/// What may come of the turns. Where it is forced, there are two answers, or there is no second free option;
/// where it is open, one answer at least is missing.
const SETTLED: [&str; 10] = [
    "forced out out",
    "forced out fitted",
    "forced fitted out",
    "forced fitted fitted",
    "forced none none",
    "open out none",
    "open fitted none",
    "open none out",
    "open none fitted",
    "open none none",
];

/// The refusals, in their order.
const REFUSALS: [u32; 10] = [1, 2, 3, 4, 5, 6, 7, 8, 12, 16];

/// What was compared: the questions by their endings, numbers of free options and sorts; what the checker's own
/// checks said of them, and of how many it was asked what comes after the first two choices; and what the
/// solver said, or why it said nothing.
#[derive(Debug, Default)]
pub struct Tally {
    turns: usize,
    endings: BTreeMap<String, usize>,
    numbers: BTreeMap<String, usize>,
    sorts: BTreeMap<&'static str, usize>,
    checks: BTreeMap<Built, usize>,
    after_two: usize,
    solved: BTreeMap<bool, usize>,
    solved_after_two: usize,
    no_solver: Option<String>,
}

/// So many questions go with so many books.
pub fn beside(books: usize) -> usize {
    LEAST.max(books / BOOKS)
}

/// Runs this many generated questions; the first difference ends it and is told in words, as is a sort that was
/// never seen. A checker that takes no turns is not asked; where there is no solver, it is told why.
pub fn run(
    tested: &mut dyn UnderTest,
    outside: Result<Outside, String>,
    seed: u64,
    questions: usize,
) -> Result<Option<Tally>, String> {
    if !tested.takes(&turns(seed, 0).into()) {
        return Ok(None);
    }
    let (outside, no_solver) = match outside {
        Ok(outside) => (Some(outside), None),
        Err(missing) => (None, Some(missing)),
    };
    let mut tally = Tally { no_solver, ..Tally::default() };
    for number in 0..questions {
        let turns = turns(seed, number);
        compare(tested, outside, &turns, &mut tally).map_err(|difference| {
            format!("turns {number} of seed {seed}: {difference}\n{}", turns.told())
        })?;
    }
    tally.has_all()?;
    Ok(Some(tally))
}

/// Compares one question, looks at what its answer means, and counts it.
fn compare(
    tested: &mut dyn UnderTest,
    outside: Option<Outside>,
    turns: &Turns,
    tally: &mut Tally,
) -> Result<(), String> {
    let settled = turns.port_settled();
    let (due, printed) = (settled_text(&settled), tested.printed(&turns.clone().into())?);
    if printed != due {
        let line = first_difference(&printed, &due);
        return Err(format!("the answers differ: {}'s {line}", tested.name()));
    }
    if let Ok(answer) = &settled {
        *tally.checks.entry(by_check(tested, turns, answer.forced)?).or_default() += 1;
        let after_two = after_two(turns, answer);
        for (after, forced) in &after_two {
            bears_out(tested, after, *forced)?;
            tally.after_two += 1;
        }
        if let Some(outside) = outside {
            confirm(outside, turns, answer.forced, &after_two, tally)?;
        }
    }
    tally.add(turns, &settled);
    Ok(())
}

/// The checker's own turns after the first two choices can be forced exactly where they have to be.
fn bears_out(tested: &mut dyn UnderTest, after: &Turns, forced: bool) -> Result<(), String> {
    let printed = tested.printed(&after.clone().into())?;
    let due = forced_name(forced);
    match printed.split(' ').next() == Some(due) {
        true => Ok(()),
        false => {
            let (name, line) = (tested.name(), printed.lines().next().unwrap_or_default());
            Err(told_after(after, &format!("{name} says `{line}`, due is `{due}`")))
        }
    }
}

/// What is told of an order after the first two choices.
fn told_after(after: &Turns, what: &str) -> String {
    format!("{what}, after two choices, of\n{}\nwhich are those of", after.told())
}

/// The solver's verdict on the question, and of some on what comes after the first two choices, is the same.
fn confirm(
    outside: Outside,
    turns: &Turns,
    forced: bool,
    after_two: &[(Turns, bool)],
    tally: &mut Tally,
) -> Result<(), String> {
    let agrees = |turns: &Turns, forced: bool| match outside(&quantified(turns)?)? == forced {
        true => Ok(()),
        false => Err(format!("the outside solver does not say `{}`", forced_name(forced))),
    };
    if tally.solved.values().sum::<usize>() < SOLVED {
        agrees(turns, forced)?;
        *tally.solved.entry(forced).or_default() += 1;
    }
    if tally.solved_after_two < SOLVED_AFTER_TWO && !after_two.is_empty() {
        for (after, forced) in after_two {
            agrees(after, *forced).map_err(|what| told_after(after, &what))?;
        }
        tally.solved_after_two += 1;
    }
    Ok(())
}

/// What came of a question, by name.
fn ending(settled: &Settled) -> String {
    match settled {
        Ok(answer) => settled_name(answer),
        Err(number) => format!("refused {number}"),
    }
}

/// All endings, in the order in which they are told.
fn endings() -> Vec<String> {
    let settled = SETTLED.map(str::to_string).into_iter();
    settled.chain(REFUSALS.map(|number| ending(&Err(number)))).collect()
}

impl Tally {
    fn add(&mut self, turns: &Turns, settled: &Settled) {
        self.turns += 1;
        *self.endings.entry(ending(settled)).or_default() += 1;
        let run = Run::new(turns, settled);
        if let Some(number) = run.number() {
            *self.numbers.entry(number).or_default() += 1;
        }
        for (name, _) in SORTS.iter().filter(|(_, is_such)| is_such(&run)) {
            *self.sorts.entry(name).or_default() += 1;
        }
    }

    /// Each ending, number of free options, sort and verdict of a check by its name, and how often it was seen;
    /// and, where there is a solver, each of its verdicts.
    fn counts(&self) -> [Vec<(String, usize)>; 5] {
        let count = |count: Option<&usize>| count.copied().unwrap_or(0);
        let ending = |ending: String| (ending.clone(), count(self.endings.get(&ending)));
        let number = |number: String| (number.clone(), count(self.numbers.get(&number)));
        let sort = |name: &'static str| (name.to_string(), count(self.sorts.get(name)));
        let check = |built: Built| (built.name().to_string(), count(self.checks.get(&built)));
        let solved = |forced: bool| {
            (format!("{} by the solver", forced_name(forced)), count(self.solved.get(&forced)))
        };
        let solved = [true, false].map(solved).to_vec();
        [
            endings().into_iter().map(ending).collect(),
            numbers().into_iter().map(number).collect(),
            SORTS.iter().map(|(name, _)| sort(name)).collect(),
            Built::DUE.map(check).to_vec(),
            if self.no_solver.is_none() { solved } else { Vec::new() },
        ]
    }

    /// Everything that may come up was seen.
    fn has_all(&self) -> Result<(), String> {
        match self.counts().into_iter().flatten().find(|(_, count)| *count == 0) {
            Some((name, _)) => Err(format!("no turns with `{name}` were seen")),
            None => Ok(()),
        }
    }

    /// So many questions, of which endings and sorts, and what others said of them.
    pub fn told(&self) -> String {
        let [endings, numbers, sorts, checks, solved] = self.counts().map(|counts| {
            let told = counts.iter().map(|(name, count)| format!("{name} {count}"));
            told.collect::<Vec<String>>().join(", ")
        });
        let solved = match &self.no_solver {
            Some(missing) => format!("none, {missing}"),
            None => format!("{solved}, after two choices {}", self.solved_after_two),
        };
        let stopped = self.checks.get(&Built::Stopped).unwrap_or(&0);
        format!(
            "{:<20} {:>6}   {endings}\nturns have: {numbers}, {sorts}\n\
             turns by a check of the order too: {checks}, stopped {stopped}\n\
             turns after two choices too: {}\n\
             turns by the solver of quantified clauses too: {solved}\n",
            "turns", self.turns, self.after_two
        )
    }
}

#[cfg(test)]
mod tests;
