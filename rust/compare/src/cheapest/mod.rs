//! Generated questions for the cheapest plant, answered by the checker under test and by the port, which tries
//! all choices; the places that are lent are looked at in lent/cheapest.rs. What an answer means (meaning.rs) is
//! held to all choices of small books, to the checker's own check of the order, to its answers to questions that
//! follow from it, to its answers where one price rises (moved/), and to an outside optimiser, where there is one.

mod made;
mod meaning;
mod moved;
mod prices;
mod run;
mod sorts;

pub use made::cheapest;
pub use meaning::{for_the_total, Outside};

use crate::question::{first_difference, quoted_text, Cheapest, Quoted};
use crate::under_test::UnderTest;
use meaning::{by_all_choices, by_check, choice_of, following, for_the_choice, Built};
use optbook::Book;
use port::Quote;
use run::Run;
use sorts::{number, numbers, SORTS};
use std::collections::BTreeMap;

/// At least so many questions, so that every sort is seen, and one for so many books.
const LEAST: usize = 400;
const BOOKS: usize = 2;

/// The optimiser is asked about so many questions, the first ones that are not refused.
const OPTIMISED: usize = 100;

/// The refusals, in their order.
const REFUSALS: [u32; 11] = [1, 2, 3, 4, 5, 6, 7, 8, 12, 17, 18];

/// What was compared: the questions by their endings, numbers of free options and sorts; of how many all choices
/// were tried, what the checker's own checks said, how many questions followed, and which prices rose; and what
/// the optimiser said, or why it said nothing.
#[derive(Debug, Default)]
pub struct Tally {
    questions: usize,
    endings: BTreeMap<String, usize>,
    numbers: BTreeMap<String, usize>,
    sorts: BTreeMap<&'static str, usize>,
    tried: usize,
    checks: BTreeMap<Built, usize>,
    following: usize,
    moved: moved::Tally,
    optimised: BTreeMap<bool, usize>,
    no_optimiser: Option<String>,
}

/// So many questions go with so many books.
pub fn beside(books: usize) -> usize {
    LEAST.max(books / BOOKS)
}

/// Runs this many generated questions; the first difference ends it and is told in words, as is a sort that was
/// never seen. A checker that takes no such question is not asked; where there is no optimiser, it is told why.
pub fn run(
    tested: &mut dyn UnderTest,
    outside: Result<Outside, String>,
    seed: u64,
    questions: usize,
) -> Result<Option<Tally>, String> {
    if !tested.takes(&cheapest(seed, 0).into()) {
        return Ok(None);
    }
    let (outside, no_optimiser) = match outside {
        Ok(outside) => (Some(outside), None),
        Err(missing) => (None, Some(missing)),
    };
    let mut tally = Tally { no_optimiser, ..Tally::default() };
    for number in 0..questions {
        let asked = cheapest(seed, number);
        let quoted = asked.port_quoted();
        let run = Run::new(&asked, &quoted);
        let rises = moved::rises(seed, number, &run);
        compare(tested, outside, &run, &mut tally)
            .and_then(|()| moved::compare(tested, &run, &rises, &mut tally.moved))
            .map_err(|difference| {
                format!("cheapest {number} of seed {seed}: {difference}\n{}", asked.told())
            })?;
    }
    tally.has_all()?;
    Ok(Some(tally))
}

/// Compares one question, looks at what its answer means, and counts it.
fn compare(
    tested: &mut dyn UnderTest,
    outside: Option<Outside>,
    run: &Run,
    tally: &mut Tally,
) -> Result<(), String> {
    let asked = run.asked;
    agrees(tested, asked, run.quoted)?;
    if let Ok(quote) = *run.quoted {
        let book = run.book.as_ref().ok_or("an answer to a book that is refused")?;
        if is_least_of_all(asked, book, quote)? {
            tally.tried += 1;
        }
        *tally.checks.entry(by_check(tested, asked, quote)?).or_default() += 1;
        for following in following(asked, quote) {
            agrees(tested, &following.question, &Ok(following.quote)).map_err(|difference| {
                let (what, question) = (following.what, following.question.told());
                format!("with {what} {difference}\n{question}\nwhich follows from")
            })?;
            tally.following += 1;
        }
        if let Some(outside) = outside.filter(|_| tally.is_still_optimised()) {
            confirm(outside, asked, book, quote)?;
            *tally.optimised.entry(quote.is_some()).or_default() += 1;
        }
    }
    tally.add(run);
    Ok(())
}

/// The checker gives this answer.
fn agrees(tested: &mut dyn UnderTest, asked: &Cheapest, quoted: &Quoted) -> Result<(), String> {
    let (due, printed) = (quoted_text(quoted), tested.printed(&asked.clone().into())?);
    match printed == due {
        true => Ok(()),
        false => {
            let line = first_difference(&printed, &due);
            Err(format!("the answers differ: {}'s {line}", tested.name()))
        }
    }
}

/// All choices of a small book were tried, and the answer is the least of them with the amount due on it.
fn is_least_of_all(asked: &Cheapest, book: &Book, quote: Option<Quote>) -> Result<bool, String> {
    let Some(least) = by_all_choices(asked, book) else { return Ok(false) };
    let due = least.map(|(total, choice)| {
        let twice = 2 * total * (1000 - asked.rebate);
        Quote { total, due: (twice + 1000) / 2000, choice }
    });
    match due == quote {
        true => Ok(true),
        false => {
            let due = quoted_text(&Ok(due));
            Err(format!("all choices give `{}`", due.trim_end()))
        }
    }
}

/// The optimiser finds the same total and, with it, the same choice; or nothing can be built by it either.
fn confirm(
    outside: Outside,
    asked: &Cheapest,
    book: &Book,
    quote: Option<Quote>,
) -> Result<(), String> {
    let least = outside(&for_the_total(asked, book))?;
    if least != quote.map(|quote| quote.total) {
        return Err(format!("the outside optimiser's total is {}", told(least)));
    }
    let Some(Quote { total, choice, .. }) = quote else { return Ok(()) };
    let least = outside(&for_the_choice(asked, book, total))?;
    let found = least.map(|number| choice_of(asked, number));
    match found == Some(choice) {
        true => Ok(()),
        false => Err(format!("the outside optimiser's choice is {}", told(found))),
    }
}

fn told(found: Option<u64>) -> String {
    found.map_or("none".to_string(), |number| number.to_string())
}

/// What came of a question, by name.
fn ending(quoted: &Quoted) -> String {
    match quoted {
        Ok(Some(_)) => "can".to_string(),
        Ok(None) => "cannot".to_string(),
        Err(number) => format!("refused {number}"),
    }
}

/// All endings, in the order in which they are told.
fn endings() -> Vec<String> {
    let verdicts = ["can", "cannot"].map(str::to_string).into_iter();
    verdicts.chain(REFUSALS.map(|number| ending(&Err(number)))).collect()
}

impl Tally {
    fn is_still_optimised(&self) -> bool {
        self.optimised.values().sum::<usize>() < OPTIMISED
    }

    fn add(&mut self, run: &Run) {
        self.questions += 1;
        *self.endings.entry(ending(run.quoted)).or_default() += 1;
        if let Some(number) = number(run) {
            *self.numbers.entry(number).or_default() += 1;
        }
        for (name, _) in SORTS.iter().filter(|(_, is_such)| is_such(run)) {
            *self.sorts.entry(name).or_default() += 1;
        }
    }

    /// Each ending, number of free options, sort, verdict of a check and sort of a rise by its name, and how often
    /// it was seen; and, where there is an optimiser, each of its verdicts.
    fn counts(&self) -> [Vec<(String, usize)>; 6] {
        let count = |count: Option<&usize>| count.copied().unwrap_or(0);
        let ending = |ending: String| (ending.clone(), count(self.endings.get(&ending)));
        let number = |number: String| (number.clone(), count(self.numbers.get(&number)));
        let sort = |name: &'static str| (name.to_string(), count(self.sorts.get(name)));
        let check = |name: &str, built| (name.to_string(), count(self.checks.get(&built)));
        let optimised =
            |name: &str, can| (format!("{name} by the optimiser"), count(self.optimised.get(&can)));
        let optimised = vec![optimised("can", true), optimised("cannot", false)];
        [
            endings().into_iter().map(ending).collect(),
            numbers().into_iter().map(number).collect(),
            SORTS.iter().map(|(name, _)| sort(name)).collect(),
            vec![check("can and found", Built::Can), check("cannot and none", Built::Cannot)],
            self.moved.counts(),
            if self.no_optimiser.is_none() { optimised } else { Vec::new() },
        ]
    }

    /// Everything that may come up was seen.
    fn has_all(&self) -> Result<(), String> {
        match self.counts().into_iter().flatten().find(|(_, count)| *count == 0) {
            Some((name, _)) => Err(format!("no cheapest plant with `{name}` was seen")),
            None => Ok(()),
        }
    }

    /// So many questions, of which endings and sorts, and what others said of them.
    pub fn told(&self) -> String {
        let [endings, numbers, sorts, checks, moved, optimised] = self.counts().map(|counts| {
            let told = counts.iter().map(|(name, count)| format!("{name} {count}"));
            told.collect::<Vec<String>>().join(", ")
        });
        let optimised = match &self.no_optimiser {
            Some(missing) => format!("none, {missing}"),
            None => optimised,
        };
        let stopped = self.checks.get(&Built::Stopped).unwrap_or(&0);
        format!(
            "{:<20} {:>6}   {endings}\ncheapest plants have: {numbers}, {sorts}\n\
             cheapest plants by all choices too: {}\n\
             cheapest plants by a check of the order too: {checks}, stopped {stopped}\n\
             questions that follow: {}\n\
             prices moved {}: {moved}\n\
             moved options left out or not by all choices too: {}\n\
             cheapest plants by the outside optimiser too: {optimised}\n",
            "cheapest plants",
            self.questions,
            self.tried,
            self.following,
            self.moved.rises,
            self.moved.tried
        )
    }
}

#[cfg(test)]
mod readings;
#[cfg(test)]
mod tests;
