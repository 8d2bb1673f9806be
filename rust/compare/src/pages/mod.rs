//! Generated pages through the checker under test and through the port, byte for byte; the bytes that are
//! lent are looked at in lent/page.rs. Each page is also read back, and must say what the checker's own
//! printed outcome of the same check says (read_back.rs).

mod made;
mod read_back;
mod sorts;

pub use made::page;

use crate::question::{ending_name, first_difference, Page, Question};
use crate::under_test::UnderTest;
use port::{Ending, Outcome, CAN, CANNOT};
use sorts::{Needs, Run, Sort, SORTS};
use std::collections::BTreeMap;

/// At least so many pages, so that every kind is seen, and one for so many books.
const LEAST: usize = 400;
const BOOKS: usize = 2;

/// So many pages go to one checker before the next one's turn. The sorts of pages come round in other
/// numbers (made.rs), so each comes to each checker.
const TURN: usize = 7;

/// The endings, and what a checker must take for them to come up.
const ENDINGS: [(Ending, Needs); 13] = [
    (CAN, Needs::Nothing),
    (CANNOT, Needs::Nothing),
    (Ending::Refused(1), Needs::Nothing),
    (Ending::Refused(2), Needs::Nothing),
    (Ending::Refused(3), Needs::Nothing),
    (Ending::Refused(4), Needs::Nothing),
    (Ending::Refused(5), Needs::Nothing),
    (Ending::Refused(6), Needs::Nothing),
    (Ending::Refused(7), Needs::Nothing),
    (Ending::Refused(8), Needs::Nothing),
    (Ending::Refused(12), Needs::Nothing),
    (Ending::Stopped(10), Needs::AnyAllowance),
    (Ending::Stopped(11), Needs::Nothing),
];

/// What was compared: the pages by their endings and by what came up on them, those that were read back,
/// and those that the checker has no way to take.
#[derive(Debug, Default)]
pub struct Tally {
    pages: usize,
    endings: BTreeMap<String, usize>,
    sorts: BTreeMap<&'static str, usize>,
    read_back: usize,
    not_taken: usize,
}

/// So many pages go with so many books.
pub fn beside(books: usize) -> usize {
    LEAST.max(books / BOOKS)
}

/// Runs this many generated pages through these checkers in turn, which differ in the rubbish in the bytes
/// that they are lent; the first difference ends it and is told in words, as is a kind that was never seen.
/// A page with an allowance that a checker does not take is asked with the program's. Checkers that take no
/// page are not asked.
pub fn run(
    tested: &mut [Box<dyn UnderTest>],
    seed: u64,
    pages: usize,
) -> Result<Option<Tally>, String> {
    let take = |page: Page| {
        let question = Question::from(page);
        tested.iter().all(|checker| checker.takes(&question))
    };
    if !take(Page::of_program(vec![0; 27])) {
        return Ok(None);
    }
    let any_allowance = take(Page { input: vec![0; 27], allowance: 3 });
    let short_orders = take(Page::of_program(Vec::new()));
    let mut tally = Tally::default();
    for number in 0..pages {
        let page = page(seed, number);
        let page = if any_allowance { page } else { Page::of_program(page.input) };
        if page.parts().is_none() && !short_orders {
            tally.not_taken += 1;
            continue;
        }
        let checker = tested[number / TURN % tested.len()].as_mut();
        compare(checker, &page, &mut tally).map_err(|difference| {
            format!("page {number} of seed {seed}: {difference}\n{}", page.told())
        })?;
    }
    tally.has_all(|needs| match needs {
        Needs::Nothing => true,
        Needs::AnyAllowance => any_allowance,
        Needs::ShortOrders => short_orders,
    })?;
    Ok(Some(tally))
}

/// Compares one page, reads it back, and counts it.
fn compare(tested: &mut dyn UnderTest, page: &Page, tally: &mut Tally) -> Result<(), String> {
    let check = page.check();
    let outcome = check.port_outcome();
    let (due, printed) = (port::page(&outcome), tested.printed(&page.clone().into())?);
    if printed != due {
        let line = first_difference(&printed, &due);
        return Err(format!("the pages differ: {}'s {line}", tested.name()));
    }
    let own = tested.printed(&check.into())?;
    read_back::agrees(&printed, &own)
        .map_err(|what| format!("{}'s page is not that of its outcome: {what}", tested.name()))?;
    tally.read_back += 1;
    tally.add(page, &outcome);
    Ok(())
}

impl Tally {
    fn add(&mut self, page: &Page, outcome: &Outcome) {
        self.pages += 1;
        *self.endings.entry(ending_name(outcome.ending)).or_default() += 1;
        let run = Run { page, outcome };
        for (name, _, _) in SORTS.iter().filter(|(_, _, is_such)| is_such(&run)) {
            *self.sorts.entry(name).or_default() += 1;
        }
    }

    /// Every ending and every sort was seen that the checkers take what is needed for.
    fn has_all(&self, take: impl Fn(Needs) -> bool) -> Result<(), String> {
        let endings = ENDINGS.into_iter().filter(|(_, needs)| take(*needs));
        let endings = endings.map(|(ending, _)| ending_name(ending));
        let counts = endings.map(|ending| (format!("ending `{ending}`"), self.ending(&ending)));
        let sorts = SORTS.iter().filter(|(_, needs, _)| take(*needs));
        let sorts = sorts.map(|(name, _, _)| (format!("sort `{name}`"), self.sort(name)));
        match counts.chain(sorts).find(|(_, count)| *count == 0) {
            Some((what, _)) => Err(format!("no page with {what} was seen")),
            None => Ok(()),
        }
    }

    fn ending(&self, name: &str) -> usize {
        self.endings.get(name).copied().unwrap_or(0)
    }

    fn sort(&self, name: &str) -> usize {
        self.sorts.get(name).copied().unwrap_or(0)
    }

    /// So many pages, of which endings and sorts, and how many were read back.
    pub fn told(&self) -> String {
        let endings = ENDINGS.iter().map(|(ending, _)| ending_name(*ending));
        let endings: Vec<String> =
            endings.map(|ending| format!("{ending} {}", self.ending(&ending))).collect();
        let sort = |(name, _, _): &Sort| format!("{name} {}", self.sort(name));
        let sorts: Vec<String> = SORTS.iter().map(sort).collect();
        let mut text = format!(
            "{:<20} {:>6}   {}\npages have: {}\npages that say what the outcome does: {}\n",
            "pages",
            self.pages,
            endings.join(", "),
            sorts.join(", "),
            self.read_back
        );
        if self.not_taken > 0 {
            text += &format!("pages that the checker has no way to take: {}\n", self.not_taken);
        }
        text
    }
}

#[cfg(test)]
mod tests;
