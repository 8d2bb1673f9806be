//! Generated books, orders, prices and rebates. Question number i of a seed is the same wherever it is made.

use super::prices::{prices, rebate, refused};
use crate::free::{add, before_refusal, fill, free_and_others, insert, is_wanted};
use crate::free::{order, plain, refused_order, rule, too_many};
use crate::question::Cheapest;
use crate::random::Random;
use crate::refused::refused_bytes;
use crate::shapes::{distinct, union};
use optbook::bytes::book_bytes;
use optbook::{first, option, Book, Order, Rule, OPTIONS, RULES};

/// What is asked, in turn.
#[derive(Clone, Copy, PartialEq, Eq)]
enum Sort {
    /// A book of up to 12 options, all of which are free.
    Small,
    /// A larger one, and an order with most of its options.
    Large,
    /// One that asks for some options again and again, so that the prices decide.
    Covers,
    /// One of 64 options and 1,024 rules, and an order with most of its options.
    Largest,
    /// A book, and an order with more free options: up to as many as may be.
    Many,
    /// A book and an order like those of a check.
    Plain,
    /// More free options than may be.
    TooMany,
    /// Prices or a rebate that are refused.
    RefusedPrices,
    /// A book that is refused.
    RefusedBook,
    /// An order that is refused.
    RefusedOrder,
}

const TURN: [Sort; 12] = [
    Sort::Small,
    Sort::Large,
    Sort::RefusedPrices,
    Sort::Many,
    Sort::Small,
    Sort::TooMany,
    Sort::Large,
    Sort::Plain,
    Sort::RefusedOrder,
    Sort::Largest,
    Sort::Covers,
    Sort::RefusedBook,
];

/// So many options may be free, and so many are in most questions.
const FREE: usize = 20;
const FEW: usize = 12;

/// So many rules are made for a book at most.
const TRIES: usize = 30;

/// The question with this number, counted from 0. The number of free options comes round with it, and every
/// second time something can be built.
pub fn cheapest(seed: u64, number: usize) -> Cheapest {
    let mut random = Random::new(seed ^ (number as u64).wrapping_mul(0x9fb2_1c65_1e98_df25));
    let random = &mut random;
    let (turn, place) = (number / TURN.len(), number % TURN.len());
    let few = number % (FEW + 1);
    let can = (turn / (FEW + 1) + place).is_multiple_of(2);
    // Every second or fourth time prices or rebate are refused too, in each way in turn.
    let every = |times: usize| turn.is_multiple_of(times).then_some(turn / times);
    let mut fault = None;
    let (book, order) = match TURN[place] {
        Sort::Small => aimed(random, few, few, can, false),
        Sort::Large => {
            let options = more_options(random, few);
            aimed(random, options, few, can, false)
        }
        Sort::Covers if turn % 4 == 1 => return last_or_others(random, turn / 4),
        Sort::Covers => covers(random, turn),
        Sort::Largest => aimed(random, OPTIONS, few, can, true),
        Sort::Many => {
            let round = turn / (FREE - FEW);
            let free = FEW + 1 + turn % (FREE - FEW);
            let options = match (round / 2).is_multiple_of(2) {
                true => more_options(random, free),
                false => free,
            };
            aimed(random, options, free, round.is_multiple_of(2), false)
        }
        Sort::Plain => plain(random, FEW + 2),
        Sort::TooMany => {
            fault = every(2);
            too_many(random, turn / 2, FREE)
        }
        Sort::RefusedPrices => {
            fault = Some(turn);
            let options = random.between(1, OPTIONS);
            let free = random.between(0, options.min(FREE));
            aimed(random, options, free, turn.is_multiple_of(3), false)
        }
        Sort::RefusedOrder => {
            fault = every(2);
            refused_order(random, turn, FREE)
        }
        Sort::RefusedBook => {
            let (book, order) = before_refusal(random);
            let bytes = refused_bytes(random, &book, 1 + turn % 6);
            return priced(random, bytes, order, every(4));
        }
    };
    priced(random, book_bytes(&book), order, fault)
}

/// A book and an order with prices and a rebate, which are refused in this way, or not. Where there is an unwanted
/// option, its price is one that may be too high.
fn priced(random: &mut Random, book: Vec<u8>, order: Order, fault: Option<usize>) -> Cheapest {
    let mut asked = Cheapest { book, order, prices: Vec::new(), rebate: 0 };
    // A book that is refused may say anything of its options.
    let options = asked.options().clamp(1, OPTIONS);
    (asked.prices, asked.rebate) = match fault {
        Some(way) => refused(random, options, order.unwanted & first(options), way),
        None => (prices(random, options), rebate(random)),
    };
    asked
}

/// More options than so many, often 64.
fn more_options(random: &mut Random, free: usize) -> usize {
    match random.chance(1, 2) {
        true => OPTIONS,
        false => random.between(free + 1, OPTIONS),
    }
}

/// A book, and an order with all but so many of its options, at the edge: rules are made one after the other,
/// and those stay with which something can be built. Where nothing shall be, there is one rule more, mostly at
/// an end. A full book has as many rules as there may be, and not all of its options are free.
fn aimed(
    random: &mut Random,
    options: usize,
    free: usize,
    can: bool,
    is_full: bool,
) -> (Book, Order) {
    let order = order(random, options, free);
    let (mut book, mut others) = (Book { options, rules: Vec::new() }, Vec::new());
    let (is_long, in_four) = (random.chance(1, 4), random.below(4));
    for _ in 0..random.below(TRIES + 1) {
        let mut rule = rule(random, &book, order, is_long);
        if random.chance(in_four, 4) {
            // Where options have to be fitted, the prices decide which.
            rule = Rule { fitted: rule.fitted | rule.left_out, left_out: 0 };
        }
        book.rules.push(rule);
        if !can_be_built(&book, order) {
            others.extend(book.rules.pop());
        }
    }
    if is_full {
        fill(random, &mut book, order, RULES - usize::from(!can));
    }
    if !can {
        let other = match others.is_empty() {
            true => broken_rule(random, &book, order),
            false => others[random.below(others.len())],
        };
        insert(random, &mut book, other);
    }
    (book, order)
}

fn can_be_built(book: &Book, order: Order) -> bool {
    let prices = vec![0; book.options];
    let cheapest = Cheapest { book: book_bytes(book), order, prices, rebate: 0 };
    matches!(cheapest.by_branches(), Ok(Some(_)))
}

/// A rule that the order breaks, of up to three wished options; of none where none is wished.
fn broken_rule(random: &mut Random, book: &Book, order: Order) -> Rule {
    let [_, wished] = free_and_others(book, order);
    let entries = random.below(4);
    let mut rule = Rule::default();
    for index in distinct(random, wished.len(), entries) {
        add(&mut rule, wished[index], !is_wanted(order, wished[index]));
    }
    rule
}

/// A book whose rules each ask for one of some options, and an order with few wishes; every eighth time each
/// option has a rule of its own.
fn covers(random: &mut Random, turn: usize) -> (Book, Order) {
    let options = random.between(3, FEW);
    let free = random.between(options - 2, options);
    let fitted = |fitted| Rule { fitted, left_out: 0 };
    let rules = match turn.is_multiple_of(8) {
        true => (0..options).map(|index| fitted(option(index))).collect(),
        false => {
            let rules = random.between(options / 2, options);
            let covering = |_| {
                let entries = random.between(2, 3);
                fitted(union(&distinct(random, options, entries)))
            };
            (0..rules).map(covering).collect()
        }
    };
    let mut order = order(random, options, free);
    if turn.is_multiple_of(8) {
        order.unwanted = 0;
    }
    (Book { options, rules }, order)
}

/// A book that asks for the last option alone or for all others without it, which cost as much together or, every
/// second time, one cent more.
fn last_or_others(random: &mut Random, turn: usize) -> Cheapest {
    let last = random.between(2, FEW - 1);
    let either = |index| Rule { fitted: union(&[index, last]), left_out: 0 };
    let not_both = |index| Rule { fitted: 0, left_out: union(&[index, last]) };
    let rules = (0..last).flat_map(|index| [either(index), not_both(index)]).collect();
    let book = book_bytes(&Book { options: last + 1, rules });
    let mut prices: Vec<u64> = (0..last).map(|_| random.between(1, 20) as u64).collect();
    prices.push(prices.iter().sum::<u64>() - (turn % 2) as u64);
    Cheapest { book, order: Order::default(), prices, rebate: rebate(random) }
}

#[cfg(test)]
mod tests {
    use super::*;

    #[test]
    fn a_seed_gives_the_same_questions_and_another_gives_others() {
        let told = |seed| (0..60).map(|i| cheapest(seed, i).told()).collect::<Vec<_>>();
        assert_eq!(told(1), told(1));
        assert_ne!(told(1), told(2));
    }

    #[test]
    fn books_that_are_aimed_at_come() {
        let mut random = Random::new(3);
        for free in 0..=FREE {
            for can in [true, false] {
                for (options, is_full) in [(free, false), (free + 1, false), (OPTIONS, true)] {
                    let (book, order) = aimed(&mut random, options, free, can, is_full);
                    assert_eq!(free_and_others(&book, order)[0].len(), free);
                    assert_eq!(can_be_built(&book, order), can);
                    assert_eq!(book.rules.len() == RULES, is_full);
                }
            }
        }
    }

    #[test]
    fn a_broken_rule_is_broken_by_the_order() {
        let mut random = Random::new(4);
        for _ in 0..60 {
            let options = random.between(1, OPTIONS);
            let free = random.between(0, options);
            let order = order(&mut random, options, free);
            let book = Book { options, rules: Vec::new() };
            let rule = broken_rule(&mut random, &book, order);
            let Order { wanted, unwanted, .. } = order.completed();
            assert_eq!([rule.fitted & !unwanted, rule.left_out & !wanted], [0, 0]);
        }
    }

    #[test]
    fn each_refusal_comes_in_its_turn() {
        let mut random = Random::new(5);
        for turn in 0..60 {
            let (book, order) = aimed(&mut random, 1 + turn % 20, 1, true, false);
            let asked = |fault| priced(&mut Random::new(6), book_bytes(&book), order, fault);
            assert_eq!(asked(Some(turn)).by_branches(), Err(18));
            assert!(matches!(asked(None).by_branches(), Ok(Some(_))));
            let (book, order) = too_many(&mut random, turn, FREE);
            for fault in [None, Some(turn)] {
                let asked = priced(&mut random, book_bytes(&book), order, fault);
                assert_eq!(asked.by_branches(), Err(17));
            }
        }
    }

    /// All options that are not unwanted keep such a book, if not two of its wishes are.
    #[test]
    fn a_book_that_asks_for_options_can_mostly_be_built() {
        let mut random = Random::new(7);
        let books: Vec<(Book, Order)> = (0..80).map(|turn| covers(&mut random, turn)).collect();
        assert!(books.iter().step_by(8).all(|(book, order)| can_be_built(book, *order)));
        assert!(books.iter().filter(|(book, order)| can_be_built(book, *order)).count() > 60);
    }

    /// The others are the smaller word.
    #[test]
    fn the_last_option_is_fitted_where_it_is_cheaper() {
        let mut random = Random::new(8);
        for turn in 0..40 {
            let asked = last_or_others(&mut random, turn);
            let last = option(asked.options() - 1);
            let choice = asked.by_branches().unwrap().unwrap().choice;
            assert_eq!(choice, if turn % 2 == 1 { last } else { last - 1 });
        }
    }
}
