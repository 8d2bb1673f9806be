//! Generated desks through the checker under test and through the port, which looks back through the calls:
//! compared after every call, and every word of the desk looked at (lent/desk.rs). Each order that a desk
//! comes to is checked against a book of its options, and no such check may be refused. Then a call on desks
//! of any words (at_will.rs).

mod at_will;
mod made;
mod sorts;

pub use at_will::state;
pub use made::desk;

use crate::question::{answers_text, first_difference, Answers, Check, Desk, Question};
use crate::under_test::UnderTest;
use optbook::bytes::input_bytes;
use optbook::Order;
use port::Places;
use sorts::{Run, SORTS};
use std::collections::BTreeMap;

/// At least so many desks, so that every sort is seen, and one for so many books.
const LEAST: usize = 400;
const BOOKS: usize = 2;

/// So many desks of any words for each of them.
const STATES: usize = 4;

/// So many desks go to one checker before the next one's turn. The sorts of desks come round in other
/// numbers (made.rs), so each comes to each checker.
const TURN: usize = 7;

/// The refusals of a fresh desk and of calls, and 0 for those that are accepted.
const NUMBERS: [u32; 5] = [0, 2, 7, 14, 15];

/// The limits of the checks of orders. Whether an order is refused does not go by them.
const PLACES: usize = 64;
const RECORDS: usize = 64;
const ALLOWANCE: u32 = 20;

/// What was compared: the desks by what came up on them, the numbers of their calls, the orders that were
/// checked, and the desks of any words.
#[derive(Debug, Default)]
pub struct Tally {
    desks: usize,
    numbers: BTreeMap<u32, usize>,
    sorts: BTreeMap<&'static str, usize>,
    orders: usize,
    states: at_will::Tally,
}

/// So many desks go with so many books.
pub fn beside(books: usize) -> usize {
    LEAST.max(books / BOOKS)
}

/// Runs this many generated desks, and four times as many of any words, through these checkers in turn, which
/// differ in the rubbish in what they are lent; the first difference ends it and is told in words, as is a
/// sort that was never seen. Checkers that take no desk are not asked.
pub fn run(
    tested: &mut [Box<dyn UnderTest>],
    seed: u64,
    desks: usize,
) -> Result<Option<Tally>, String> {
    let asked: [Question; 2] = [desk(seed, 0).into(), state(seed, 0).into()];
    if !tested.iter().all(|checker| asked.iter().all(|question| checker.takes(question))) {
        return Ok(None);
    }
    let mut tally = Tally::default();
    for number in 0..desks {
        let checker = tested[number / TURN % tested.len()].as_mut();
        let desk = desk(seed, number);
        let book = made::book(seed, number, desk.options);
        compare(checker, &desk, &book, &mut tally).map_err(|difference| {
            format!("desk {number} of seed {seed}: {difference}\n{}", desk.told())
        })?;
        for number in STATES * number..STATES * (number + 1) {
            let state = state(seed, number);
            at_will::compare(checker, &state, &mut tally.states).map_err(|difference| {
                format!("state {number} of seed {seed}: {difference}\n{}", state.told())
            })?;
        }
    }
    tally.has_all()?;
    Ok(Some(tally))
}

/// Compares one desk with none of its calls, with the first, and so on to all of them, and checks each order
/// that it comes to against a book; and counts it.
fn compare(
    tested: &mut dyn UnderTest,
    desk: &Desk,
    book: &(Vec<u8>, u64),
    tally: &mut Tally,
) -> Result<(), String> {
    let mut history: Vec<Answers> = Vec::new();
    for calls in 0..=desk.calls.len() {
        let first = desk.first(calls);
        let answers = first.port_answers();
        let (due, printed) = (answers_text(&answers), tested.printed(&first.into())?);
        if printed != due {
            let (name, line) = (tested.name(), first_difference(&printed, &due));
            return Err(format!("after {calls} calls the answers differ: {name}'s {line}"));
        }
        if history.last().map(|before| before.order) != Some(answers.order) {
            is_not_refused(tested, answers.order, book)?;
            tally.orders += 1;
        }
        history.push(answers);
    }
    tally.add(desk, &history);
    Ok(())
}

/// The checker does not refuse the order of a desk, with these standard options, against a book that has the
/// desk's options.
fn is_not_refused(
    tested: &mut dyn UnderTest,
    (wanted, unwanted): (u64, u64),
    (book, standard): &(Vec<u8>, u64),
) -> Result<(), String> {
    let order = Order { wanted, unwanted, standard: *standard };
    let places = Places::equal(PLACES, RECORDS);
    let check = Check { input: input_bytes(order, book), places, allowance: ALLOWANCE };
    let told = check.told();
    let printed = tested.printed(&check.into())?;
    match printed.starts_with("refused ") {
        true => {
            let line = printed.lines().next().unwrap_or_default();
            let name = tested.name();
            Err(format!("{name}'s check of the order {wanted} {unwanted} is `{line}`\n{told}"))
        }
        false => Ok(()),
    }
}

impl Tally {
    fn add(&mut self, desk: &Desk, history: &[Answers]) {
        self.desks += 1;
        let numbers = history.last().map(|answers| answers.numbers.as_slice()).unwrap_or(&[]);
        for number in numbers {
            *self.numbers.entry(*number).or_default() += 1;
        }
        let run = Run::new(desk, history);
        for (name, _) in SORTS.iter().filter(|(_, is_such)| is_such(&run)) {
            *self.sorts.entry(name).or_default() += 1;
        }
    }

    /// Every number and every sort was seen, and every sort of desks of any words.
    fn has_all(&self) -> Result<(), String> {
        let numbers = NUMBERS.map(|number| (number_name(number), self.number(number)));
        let sorts = SORTS.iter().map(|(name, _)| (name.to_string(), self.sort(name)));
        match numbers.into_iter().chain(sorts).find(|(_, count)| *count == 0) {
            Some((what, _)) => Err(format!("no desk with `{what}` was seen")),
            None => self.states.has_all(),
        }
    }

    fn number(&self, number: u32) -> usize {
        self.numbers.get(&number).copied().unwrap_or(0)
    }

    fn sort(&self, name: &str) -> usize {
        self.sorts.get(name).copied().unwrap_or(0)
    }

    /// So many desks, of which numbers and sorts, and how many orders were checked.
    pub fn told(&self) -> String {
        let numbers =
            NUMBERS.map(|number| format!("{} {}", number_name(number), self.number(number)));
        let sorts: Vec<String> =
            SORTS.iter().map(|(name, _)| format!("{name} {}", self.sort(name))).collect();
        format!(
            "{:<20} {:>6}   {}\ndesks have: {}\norders of desks that a check does not refuse: {}\n{}",
            "desks",
            self.desks,
            numbers.join(", "),
            sorts.join(", "),
            self.orders,
            self.states.told()
        )
    }
}

/// What 0 or a refusal is called.
fn number_name(number: u32) -> String {
    match number {
        0 => "accepted".to_string(),
        _ => format!("refused {number}"),
    }
}

#[cfg(test)]
mod tests;
