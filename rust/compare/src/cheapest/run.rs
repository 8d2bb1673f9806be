//! A question for the cheapest plant with its answer, and what can be said of both.

use super::meaning::list_total;
use super::prices::{PRICE, REBATE};
use crate::choices::keeps_all;
use crate::question::{Cheapest, Quoted};
use optbook::{Book, Order, Rule, OPTIONS};
use port::Quote;

/// So many options may be free.
pub const FREE: usize = 20;
/// Of so many free options all choices are looked at.
pub const FEW: usize = 12;

/// A question and its answer, its free options, its book where nothing is refused, and the choices that keep
/// book and order, each after its total, where few options are free.
pub struct Run<'a> {
    pub asked: &'a Cheapest,
    pub quoted: &'a Quoted,
    pub free: Vec<u64>,
    pub book: Option<Book>,
    pub kept: Vec<(u64, u64)>,
}

impl Run<'_> {
    pub fn new<'a>(asked: &'a Cheapest, quoted: &'a Quoted) -> Run<'a> {
        let book = asked.whole_book().filter(|_| quoted.is_ok());
        let free = asked.free();
        let kept = match &book {
            Some(book) if free.len() <= FEW => kept(asked, book, &free),
            _ => Vec::new(),
        };
        Run { asked, quoted, free, book, kept }
    }

    pub fn order(&self) -> Order {
        self.asked.order
    }

    pub fn is_refused(&self, number: u32) -> bool {
        *self.quoted == Err(number)
    }

    pub fn is_answered(&self) -> bool {
        self.quoted.is_ok()
    }

    /// It is not refused, and its book is such.
    pub fn is_of(&self, is_such: impl Fn(&Book) -> bool) -> bool {
        self.book.as_ref().is_some_and(is_such)
    }

    pub fn has_rule(&self, is_such: impl Fn(&Rule) -> bool) -> bool {
        self.is_of(|book| book.rules.iter().any(&is_such))
    }

    pub fn has_quote(&self, is_such: impl Fn(&Quote) -> bool) -> bool {
        matches!(self.quoted, Ok(Some(quote)) if is_such(quote))
    }

    /// Two prices at least are read, and they are such.
    pub fn has_prices(&self, is_such: impl Fn(&[u64]) -> bool) -> bool {
        self.has_quote(|_| {
            self.asked.options() > 1 && is_such(&self.asked.prices[..self.asked.options()])
        })
    }

    /// One of these options has such a price.
    pub fn has_fitted(&self, options: u64, is_such: impl Fn(u64) -> bool) -> bool {
        let prices = self.asked.prices.iter().take(OPTIONS).enumerate();
        let mut fitted = prices.filter(|(index, _)| options >> index & 1 == 1);
        fitted.any(|(_, price)| is_such(*price))
    }

    /// The options whose prices are too high, where there are such.
    pub fn bad_prices(&self) -> Option<u64> {
        let prices = self.asked.prices.iter().take(self.asked.options().min(OPTIONS)).enumerate();
        let bad = prices.filter(|(_, price)| **price > PRICE);
        Some(bad.map(|(index, _)| 1 << index).sum()).filter(|bad| *bad != 0)
    }

    pub fn has_too_few(&self) -> bool {
        self.asked.prices.len() < self.asked.options()
    }

    /// What refusal 18 asks for.
    pub fn has_bad_prices(&self) -> bool {
        self.has_too_few() || self.bad_prices().is_some() || self.asked.rebate > REBATE
    }

    /// The total times 1,000 less the rebate.
    pub fn thousandths(&self, quote: &Quote) -> u64 {
        quote.total * (REBATE - self.asked.rebate)
    }

    pub fn has_remainder(&self, is_such: impl Fn(u64) -> bool) -> bool {
        self.has_quote(|quote| is_such(self.thousandths(quote) % 1000))
    }

    /// Free options do not stand side by side.
    pub fn are_apart(&self) -> bool {
        self.is_of(|_| self.free.windows(2).any(|two| two[0] << 1 != two[1]))
    }

    pub fn all_free(&self) -> u64 {
        self.free.iter().sum()
    }

    /// The choices of the least total, the smallest first.
    pub fn equals(&self) -> Vec<(u64, u64)> {
        let least = self.kept.first().map(|(total, _)| *total);
        self.kept.iter().copied().take_while(|(total, _)| Some(*total) == least).collect()
    }

    /// The options that are wanted for being standard alone.
    pub fn standard_alone(&self) -> u64 {
        self.order().standard & !(self.order().wanted | self.order().unwanted)
    }

    pub fn standard_unwanted(&self) -> u64 {
        self.order().standard & self.order().unwanted
    }

    /// Few enough options are free, but with these there would be too many.
    pub fn has_too_many_with(&self, others: u64) -> bool {
        self.is_of(|_| self.free.len() + others.count_ones() as usize > FREE)
    }

    /// The completed order makes an entry of the rule true.
    pub fn keeps(&self, rule: &Rule) -> bool {
        let Order { wanted, unwanted, .. } = self.order().completed();
        rule.fitted & wanted != 0 || rule.left_out & unwanted != 0
    }
}

/// The choices of these free options that keep the book, each after its total: the cheapest first, and the
/// smallest of equal ones.
fn kept(asked: &Cheapest, book: &Book, free: &[u64]) -> Vec<(u64, u64)> {
    let mut choices = vec![asked.order.completed().wanted];
    for option in free {
        choices.extend(choices.clone().iter().map(|choice| choice | option));
    }
    let kept = choices.into_iter().filter(|choice| keeps_all(book, *choice));
    let mut kept: Vec<(u64, u64)> =
        kept.map(|choice| (list_total(asked, choice), choice)).collect();
    kept.sort_unstable();
    kept
}
