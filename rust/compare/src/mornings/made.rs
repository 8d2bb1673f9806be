//! Generated mornings. Morning number i of a seed is the same wherever it is made.

use crate::kinds::{wishes_and_book, Kind};
use crate::orders::some_order;
use crate::question::{Check, Morning};
use crate::random::Random;
use crate::refused::refused_bytes;
use optbook::bytes::{book_bytes, input_bytes};
use optbook::Order;
use port::{Outcome, Places};
use std::ops::RangeInclusive;

/// The kinds of books, in turn.
const KINDS: [Kind; 5] =
    [Kind::Tiny, Kind::OptionBook, Kind::Tiny, Kind::ThreeEntries, Kind::AllRules];

/// The numbers of orders that are served, and those that are refused. One in so many mornings has one
/// of the latter, in turn.
const SERVED: RangeInclusive<usize> = 1..=16;
const NOT_SERVED: [usize; 4] = [0, 17, 18, 40];
const ONE_NOT_SERVED: usize = 16;

/// One in so many mornings that are served has a book that is refused, with 1 to 6 in turn.
const ONE_REFUSED: usize = 10;

/// Limits with which it is seen what an order needs.
const AMPLE: u32 = 300;
const MOST_PLACES: usize = 2048;
const RECORDS: usize = 64;

/// The morning with this number, counted from 0.
pub fn morning(seed: u64, number: usize) -> Morning {
    let mut random = Random::new(seed ^ (number as u64).wrapping_mul(0xa076_1d64_78bd_642f));
    let count = match number % ONE_NOT_SERVED == ONE_NOT_SERVED - 1 {
        true => NOT_SERVED[number / ONE_NOT_SERVED % NOT_SERVED.len()],
        false => random.between(*SERVED.start(), *SERVED.end()),
    };
    let (options, book) = book(&mut random, number, count);
    let orders = orders(&mut random, options, count);
    let needed = needed(&mut random, &orders, &book);
    let part = part(&mut random, needed.derived.len());
    let allowance = allowance(&mut random, needed.branchings);
    Morning { places: places(&mut random, part, count), book, orders, allowance }
}

/// The options and the bytes of a book for so many orders.
fn book(random: &mut Random, number: usize, count: usize) -> (usize, Vec<u8>) {
    match refusal(random, number, count) {
        Some(refusal) => {
            let (_, book) = wishes_and_book(random, Kind::AboveN);
            (book.options, refused_bytes(random, &book, refusal))
        }
        None => {
            let (_, book) = wishes_and_book(random, KINDS[number % KINDS.len()]);
            (book.options, book_bytes(&book))
        }
    }
}

/// The number with which the book is refused, where it is. Where the number of orders is refused, so
/// is the book in half of the cases, which then plays no part.
fn refusal(random: &mut Random, number: usize, count: usize) -> Option<usize> {
    match SERVED.contains(&count) {
        true if number % ONE_REFUSED == ONE_REFUSED / 2 => Some(1 + number / ONE_REFUSED % 6),
        false if random.chance(1, 2) => Some(random.between(1, 6)),
        _ => None,
    }
}

/// So many orders. An order may come again.
fn orders(random: &mut Random, options: usize, count: usize) -> Vec<Order> {
    let mut orders: Vec<Order> = Vec::new();
    while orders.len() < count {
        let order = match !orders.is_empty() && random.chance(1, 5) {
            true => orders[random.below(orders.len())],
            false => some_order(random, options),
        };
        orders.push(order);
    }
    orders
}

/// What one of the orders needs; nothing where there is none.
fn needed(random: &mut Random, orders: &[Order], book: &[u8]) -> Outcome {
    if orders.is_empty() {
        return Outcome::refused(0);
    }
    let input = input_bytes(orders[random.below(orders.len())], book);
    let places = Places::equal(MOST_PLACES, RECORDS);
    Check { input, places, allowance: AMPLE }.port_outcome()
}

/// An allowance that is enough for the order that needs so many branchings, or too few, or ample.
fn allowance(random: &mut Random, needed: u32) -> u32 {
    match random.below(6) {
        0 => needed,
        1 => needed.saturating_sub(1),
        2 => needed / 2,
        3 => random.below(4) as u32,
        _ => AMPLE,
    }
}

/// The places of a part for derived rules: enough for the order that needs so many, or too few, or as
/// many as may be.
fn part(random: &mut Random, needed: usize) -> usize {
    match random.below(6) {
        0 => needed,
        1 => needed.saturating_sub(1),
        2 => needed / 2,
        3 => random.below(4),
        4 => needed + random.between(1, 20),
        _ => MOST_PLACES,
    }
}

/// Lengths of the tables for so many orders, mostly with remainders. Most parts for derived rules have
/// this many places; others are unequal, in tables that differ by one place or by more, or have one
/// place too many. Some parts for records have one place too few.
fn places(random: &mut Random, part: usize, orders: usize) -> Places {
    let orders = orders.max(1);
    let part = part.min(MOST_PLACES);
    let mut length = |places: usize| places * orders + random.below(orders);
    let mut derived = [length(part), length(part)];
    let mut records = [0, 1, 5].map(|more| length(RECORDS + more));
    match random.below(16) {
        0 => derived = [(part + 1) * orders - 1, (part + 1) * orders],
        1 => derived[1] += orders,
        2 => derived = derived.map(|length| length + (MOST_PLACES + 1 - part) * orders),
        3 => records[random.below(3)] = RECORDS * orders - 1 - random.below(orders),
        _ => (),
    }
    if random.chance(1, 2) {
        derived.reverse();
        records.reverse();
    }
    Places { derived, records }
}

#[cfg(test)]
mod tests {
    use super::*;
    use port::{Ending, Outcome};
    use std::sync::LazyLock;

    static MORNINGS: LazyLock<Vec<Morning>> =
        LazyLock::new(|| (0..800).map(|number| morning(5, number)).collect());

    /// There are at least so many mornings of this kind.
    fn come(least: usize, is_such: impl Fn(&Morning) -> bool) -> bool {
        MORNINGS.iter().filter(|morning| is_such(morning)).count() >= least
    }

    /// The remainders of the two tables for derived rules and of the three for records.
    fn remainders(morning: &Morning) -> [usize; 5] {
        let (orders, Places { derived: [pos, neg], records: [decided, trues, redundant] }) =
            (morning.orders.len().max(1), morning.places);
        [pos, neg, decided, trues, redundant].map(|length| length % orders)
    }

    /// The outcomes of the orders; none where their number is refused.
    fn outcomes(morning: &Morning) -> Vec<Outcome> {
        morning.port_outcomes().unwrap_or_default()
    }

    #[test]
    fn a_seed_gives_the_same_mornings_and_another_gives_others() {
        let told = |seed| (0..40).map(|i| morning(seed, i).told()).collect::<Vec<_>>();
        assert_eq!(told(1), told(1));
        assert_ne!(told(1), told(2));
    }

    #[test]
    fn every_number_of_orders_comes() {
        for orders in (0..=18).chain([40]) {
            assert!(come(1, |morning| morning.orders.len() == orders), "{orders} orders");
        }
    }

    #[test]
    fn a_refused_number_of_orders_comes_with_every_refused_book_and_with_good_ones() {
        for number in 0..=6 {
            let is_such = |morning: &Morning| {
                let one = Morning { orders: vec![Order::default()], ..morning.clone() };
                let due = match outcomes(&one)[0].ending {
                    Ending::Refused(number) if number < 7 => number,
                    _ => 0,
                };
                morning.port_outcomes().is_err() && due == number
            };
            assert!(come(1, is_such), "{number}");
        }
    }

    #[test]
    fn each_table_leaves_remainders() {
        for table in 0..5 {
            assert!(come(100, |morning| remainders(morning)[table] > 0), "table {table}");
        }
    }

    #[test]
    fn unequal_tables_have_equal_parts_and_nearly_equal_ones_unequal_parts() {
        let parts = |morning: &Morning| {
            morning.places.derived.map(|length| length / morning.orders.len().max(1))
        };
        let differ = |[pos, neg]: [usize; 2]| pos.abs_diff(neg);
        let is_served = |morning: &Morning| !outcomes(morning).is_empty();
        assert!(come(100, |morning| is_served(morning)
            && differ(morning.places.derived) > 0
            && differ(parts(morning)) == 0));
        assert!(come(20, |morning| is_served(morning)
            && differ(morning.places.derived) == 1
            && differ(parts(morning)) == 1));
        assert!(come(20, |morning| is_served(morning)
            && morning.places.derived[0] > MOST_PLACES
            && parts(morning) == [MOST_PLACES; 2]));
        assert!(come(10, |morning| is_served(morning) && parts(morning) == [MOST_PLACES + 1; 2]));
    }

    #[test]
    fn record_tables_differ_and_some_parts_are_too_short() {
        let least = |morning: &Morning| {
            let parts = morning.places.records.map(|length| length / morning.orders.len().max(1));
            parts.into_iter().min()
        };
        assert!(come(700, |morning| morning.places.records[0] != morning.places.records[2]));
        assert!(come(20, |morning| least(morning) == Some(RECORDS - 1)));
        assert!(come(600, |morning| least(morning) == Some(RECORDS)));
    }

    #[test]
    fn refused_orders_stand_between_good_ones() {
        for number in [7, 8, 12] {
            let is_such = |morning: &Morning| {
                let outcomes = outcomes(morning);
                outcomes.windows(3).any(|three| {
                    let [first, second, third] = [0, 1, 2].map(|i| three[i].ending);
                    let is_good = |ending| matches!(ending, Ending::Verdict(_));
                    is_good(first) && second == Ending::Refused(number) && is_good(third)
                })
            };
            assert!(come(10, is_such), "refusal {number}");
        }
    }

    #[test]
    fn some_orders_of_a_morning_stop_and_others_do_not() {
        for number in [10, 11] {
            let is_such = |morning: &Morning| {
                let outcomes = outcomes(morning);
                let stops = outcomes.iter().any(|o| o.ending == Ending::Stopped(number));
                stops && outcomes.iter().any(|o| matches!(o.ending, Ending::Verdict(_)))
            };
            assert!(come(20, is_such), "stop {number}");
        }
    }

    #[test]
    fn an_order_comes_again() {
        assert!(come(100, |morning| {
            let again = |(i, order)| morning.orders[..i].contains(order);
            morning.orders.iter().enumerate().any(again)
        }));
    }
}
