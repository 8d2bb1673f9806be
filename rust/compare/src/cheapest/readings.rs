//! Checkers that are made for tests, and right and wrong readings of cheapest plants.

use super::meaning::list_total;
use super::prices::REBATE;
use crate::question::{quoted_text, Cheapest, Check, Question, Quoted};
use crate::under_test::UnderTest;
use optbook::{first, Order};
use port::{Outcome, Quote};

/// A checker made of a function for cheapest plants and one for a check.
pub struct Made {
    pub cheapest: Box<dyn Fn(&Cheapest) -> Quoted>,
    pub check: fn(&Check) -> Outcome,
}

impl Made {
    /// A checker that answers in this way, and checks like the port.
    pub fn new(cheapest: impl Fn(&Cheapest) -> Quoted + 'static) -> Made {
        Made { cheapest: Box::new(cheapest), check: Check::port_outcome }
    }
}

/// A checker that answers like the port's branches.
pub fn by_branches() -> Made {
    Made::new(Cheapest::by_branches)
}

impl UnderTest for Made {
    fn name(&self) -> String {
        "made".to_string()
    }

    fn takes(&self, question: &Question) -> bool {
        matches!(question, Question::Check(_) | Question::Cheapest(_))
    }

    fn printed(&mut self, question: &Question) -> Result<String, String> {
        match question {
            Question::Check(check) => Ok((self.check)(check).to_string()),
            Question::Cheapest(asked) => Ok(quoted_text(&(self.cheapest)(asked))),
            _ => Err("neither a check nor a cheapest plant".to_string()),
        }
    }
}

/// With more free options than these a reading gives the right answer: all choices would take too long.
const TRIED: u32 = 14;

/// A total and its choice.
pub type Found = (u64, u64);

/// How a cheapest plant may be read: what is refused, which options are wanted and which unwanted, which of the
/// fitted ones are paid for, whether the next of the choices in ascending order is a better one, and what is due.
#[derive(Clone, Copy)]
pub struct Reading {
    pub refused: fn(&Cheapest) -> Option<u32>,
    pub wanted: fn(Order) -> u64,
    pub unwanted: fn(Order) -> u64,
    pub paid: fn(Order, u64) -> u64,
    pub is_better: fn(Found, Found) -> bool,
    pub due: fn(u64, u64) -> u64,
}

pub const RIGHT: Reading = Reading {
    refused: |asked| asked.by_branches().err(),
    wanted: |order| order.completed().wanted,
    unwanted: |order| order.unwanted,
    paid: |_, choice| choice,
    is_better: |next, best| next.0 < best.0,
    due: |total, rebate| (total * REBATE.saturating_sub(rebate) + 500) / 1000,
};

impl Reading {
    pub fn quoted(&self, asked: &Cheapest) -> Quoted {
        if let Some(number) = (self.refused)(asked) {
            return Err(number);
        }
        let (book, order) = (asked.whole_book().unwrap(), asked.order);
        let (wanted, unwanted) = ((self.wanted)(order), (self.unwanted)(order));
        let free = first(book.options) & !(wanted | unwanted);
        if free.count_ones() > TRIED {
            return asked.by_branches();
        }
        let (mut best, mut fitted): (Option<Found>, u64) = (None, 0);
        loop {
            let choice = wanted | fitted;
            if book.rules.iter().all(|rule| rule.is_kept_by(choice)) {
                let next = (list_total(asked, (self.paid)(order, choice)), choice);
                if best.is_none_or(|best| (self.is_better)(next, best)) {
                    best = Some(next);
                }
            }
            if fitted == free {
                break;
            }
            // The next greater word that has free options alone.
            fitted = (fitted | !free).wrapping_add(1) & free;
        }
        let due = |total| (self.due)(total, asked.rebate);
        Ok(best.map(|(total, choice)| Quote { total, due: due(total), choice }))
    }
}
