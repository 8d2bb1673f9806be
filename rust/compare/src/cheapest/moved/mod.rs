//! One price that rises: the checker under test is asked for the cheapest plant at the old price and at the new
//! one, and what it says is held to four sentences. The port is not asked.

mod made;
mod sorts;

pub use made::rises;

use crate::cheapest::run::{Run, FEW};
use crate::question::{quoted_text, read_quoted, Cheapest, Quoted};
use crate::under_test::UnderTest;
use made::Rise;
use optbook::{number, Order};
use port::Quote;
use sorts::SORTS;
use std::collections::BTreeMap;

/// What holds of the quotes at the old and at the new price.
#[derive(Clone, Copy, Debug, PartialEq, Eq, PartialOrd, Ord)]
enum Sentence {
    Total,
    LeftOut,
    NoRebate,
    Rebate,
}

impl Sentence {
    fn words(self) -> &'static str {
        match self {
            Sentence::Total => "the total rises by no less than 0 and no more than the price does",
            Sentence::LeftOut => {
                "where a cheapest choice leaves the option out, neither total nor amount due moves, \
                 and where none does, the total rises"
            }
            Sentence::NoRebate => {
                "with no rebate the amount due rises by no less than 0 and no more than the price does"
            }
            Sentence::Rebate => {
                "with a rebate the amount due never falls, and rises by no more than the price does"
            }
        }
    }
}

/// A question at the old price, and what the checker quotes at the old and at the new one.
struct Quotes {
    asked: Cheapest,
    before: Quote,
    after: Quote,
}

impl Quotes {
    fn new(tested: &mut dyn UnderTest, asked: Cheapest, rise: Rise) -> Result<Quotes, String> {
        let before = quote(tested, &asked)?;
        let after = quote(tested, &rise.after(&asked))?;
        Ok(Quotes { asked, before, after })
    }

    /// The sentences that are broken, where the price rises by so much and a cheapest choice leaves the option
    /// out, or none does.
    fn broken(&self, by: u64, is_left_out: bool) -> Vec<Sentence> {
        let Quotes { asked, before, after } = self;
        let is_within =
            |before: u64, after: u64| after.checked_sub(before).is_some_and(|risen| risen <= by);
        let goes_with_choices = match is_left_out {
            true => [after.total, after.due] == [before.total, before.due],
            false => by == 0 || after.total > before.total,
        };
        let of_due = if asked.rebate == 0 { Sentence::NoRebate } else { Sentence::Rebate };
        let sentences = [
            (Sentence::Total, is_within(before.total, after.total)),
            (Sentence::LeftOut, goes_with_choices),
            (of_due, is_within(before.due, after.due)),
        ];
        sentences.into_iter().filter(|(_, holds)| !holds).map(|(sentence, _)| sentence).collect()
    }
}

/// Whether a cheapest choice at the old price leaves the option out: by all choices of the least total, where few
/// options are free, and by the checker's total where the option is unwanted as well.
struct LeftOut {
    by_choices: Option<bool>,
    by_checker: bool,
}

impl LeftOut {
    fn new(
        tested: &mut dyn UnderTest,
        run: &Run,
        option: u64,
        total: u64,
    ) -> Result<LeftOut, String> {
        let by_choices = (run.free.len() <= FEW)
            .then(|| run.equals().iter().any(|(_, choice)| choice & option == 0));
        let by_checker = by_checker(tested, run.asked, option, total)?;
        Ok(LeftOut { by_choices, by_checker })
    }

    fn is_so(&self) -> bool {
        self.by_choices.unwrap_or(self.by_checker)
    }
}

/// An option that the completed order wants is left out by no choice, one that is unwanted by all, and a free one by
/// a choice of this total exactly if the order can be built for it with the option unwanted as well.
fn by_checker(
    tested: &mut dyn UnderTest,
    asked: &Cheapest,
    option: u64,
    total: u64,
) -> Result<bool, String> {
    let Order { wanted, unwanted, .. } = asked.order.completed();
    if (wanted | unwanted) & option != 0 {
        return Ok(unwanted & option != 0);
    }
    let order = Order { unwanted: unwanted | option, ..asked.order };
    let without = Cheapest { order, ..asked.clone() };
    match said(tested, &without)? {
        Ok(quote) => Ok(quote.is_some_and(|quote| quote.total == total)),
        refused => Err(not_due(tested, &without, &refused)),
    }
}

/// The checker's quote for an order that can be built.
fn quote(tested: &mut dyn UnderTest, asked: &Cheapest) -> Result<Quote, String> {
    match said(tested, asked)? {
        Ok(Some(quote)) => Ok(quote),
        other => Err(not_due(tested, asked, &other)),
    }
}

fn said(tested: &mut dyn UnderTest, asked: &Cheapest) -> Result<Quoted, String> {
    let printed = tested.printed(&asked.clone().into())?;
    read_quoted(&printed).ok_or(format!("`{printed}` is no answer"))
}

fn not_due(tested: &dyn UnderTest, asked: &Cheapest, quoted: &Quoted) -> String {
    let (name, line) = (tested.name(), quoted_text(quoted));
    format!(
        "{name} says `{}`, which is not due\n{}\nwhich follows from",
        line.trim_end(),
        asked.told()
    )
}

/// A price that rose, with what the checker quotes, the question's own rebate first and then no rebate.
struct Moved<'a> {
    run: &'a Run<'a>,
    rise: Rise,
    quotes: Vec<Quotes>,
    left_out: LeftOut,
}

impl Moved<'_> {
    fn new<'a>(tested: &mut dyn UnderTest, run: &'a Run, rise: Rise) -> Result<Moved<'a>, String> {
        let own = Quotes::new(tested, run.asked.clone(), rise)?;
        let left_out = LeftOut::new(tested, run, rise.option(), own.before.total)?;
        let mut quotes = vec![own];
        if run.asked.rebate != 0 {
            let no_rebate = Cheapest { rebate: 0, ..run.asked.clone() };
            quotes.push(Quotes::new(tested, no_rebate, rise)?);
        }
        Ok(Moved { run, rise, quotes, left_out })
    }

    /// The quotes with each rebate, and the sentences that they break.
    fn broken(&self) -> impl Iterator<Item = (&Quotes, Vec<Sentence>)> {
        let broken = |quotes: &Quotes| quotes.broken(self.rise.by, self.left_out.is_so());
        self.quotes.iter().map(move |quotes| (quotes, broken(quotes)))
    }

    /// No sentence is broken, and both ways say the same of the option.
    fn holds(&self, name: &str) -> Result<(), String> {
        if let Some((quotes, broken)) = self.broken().find(|(_, broken)| !broken.is_empty()) {
            let Quotes { asked, before, after } = quotes;
            let [before, after] = [before, after].map(|quote| quoted_text(&Ok(Some(*quote))));
            let words: Vec<&str> = broken.into_iter().map(Sentence::words).collect();
            return Err(format!(
                "{name} says `{}` before and `{}` after, and so this is broken: {}\n{}\n\
                 and at the new price\n{}\nwhich follow from",
                before.trim_end(),
                after.trim_end(),
                words.join("; "),
                asked.told(),
                self.rise.after(asked).told()
            ));
        }
        let LeftOut { by_checker, .. } = self.left_out;
        match self.left_out.is_so() == by_checker {
            true => Ok(()),
            false => Err(format!(
                "that a cheapest choice leaves the option out is {by_checker} by {name}'s total \
                 without it, and not by all choices"
            )),
        }
    }
}

/// Holds what the checker says where one price rises in these ways to the sentences, and counts it.
pub fn compare(
    tested: &mut dyn UnderTest,
    run: &Run,
    rises: &[Rise],
    tally: &mut Tally,
) -> Result<(), String> {
    for &rise in rises {
        let moved = Moved::new(tested, run, rise)
            .and_then(|moved| moved.holds(&tested.name()).map(|()| moved))
            .map_err(|difference| {
                let (option, old) = (number(rise.option()), run.asked.prices[rise.index]);
                let new = old + rise.by;
                format!("the price of option {option} rises from {old} to {new}: {difference}")
            })?;
        tally.add(&moved);
    }
    Ok(())
}

/// So many rises, by their sorts, and of how many all choices were looked at.
#[derive(Debug, Default)]
pub struct Tally {
    pub rises: usize,
    pub tried: usize,
    sorts: BTreeMap<&'static str, usize>,
}

impl Tally {
    fn add(&mut self, moved: &Moved) {
        self.rises += 1;
        self.tried += usize::from(moved.left_out.by_choices.is_some());
        for (name, _) in SORTS.iter().filter(|(_, is_such)| is_such(moved)) {
            *self.sorts.entry(name).or_default() += 1;
        }
    }

    /// Each sort by its name, and how often it was seen.
    pub fn counts(&self) -> Vec<(String, usize)> {
        let count = |name: &str| self.sorts.get(name).copied().unwrap_or(0);
        SORTS.iter().map(|(name, _)| (name.to_string(), count(name))).collect()
    }
}

#[cfg(test)]
mod tests;
