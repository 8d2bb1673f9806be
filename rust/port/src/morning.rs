//! A morning's orders together: 1 to 16 orders against one book. Each is decided with the full
//! allowance and with a part of the lent tables.

use crate::outcome::Outcome;
use crate::request::{check, Order, Places, Request};
use std::ops::RangeInclusive;

/// So many orders are taken together.
const ORDERS: RangeInclusive<usize> = 1..=16;

/// A book's bytes, the orders in their sequence, the lengths of the whole lent tables and the
/// branching allowance of each order.
#[derive(Clone, Copy, Debug)]
pub struct Morning<'a> {
    pub book: &'a [u8],
    pub orders: &'a [Order],
    pub places: Places,
    pub allowance: u32,
}

/// The outcomes of a morning's orders in turn, or refusal 13 of all of them, which comes before
/// everything else.
pub fn morning(morning: &Morning) -> Result<Vec<Outcome>, u32> {
    let Morning { book, orders, places, allowance } = *morning;
    if !ORDERS.contains(&orders.len()) {
        return Err(13);
    }
    let places = part(places, orders.len());
    let singly = |&order: &Order| check(&Request { book, order, places, allowance });
    Ok(orders.iter().map(singly).collect())
}

/// The lengths of one order's parts. Each table is cut by its own length into as many equal parts as
/// there are orders; what remains at its end belongs to none.
fn part(whole: Places, orders: usize) -> Places {
    Places {
        derived: whole.derived.map(|length| length / orders),
        records: whole.records.map(|length| length / orders),
    }
}

#[cfg(test)]
mod tests {
    use super::*;

    /// n 1, the rules "1" and "not 1": one branching and one derived rule.
    const PAIR: (u8, &[(u64, u64)]) = (1, &[(1, 0), (0, 1)]);
    const OF_PAIR: &str = "cannot 0 1 1 1\nd 0 0\nr 0 0 1\n";

    /// The book W of docs/STEPS.md: three branchings and three derived rules.
    const W: (u8, &[(u64, u64)]) = (2, &[(3, 0), (2, 1), (1, 2), (0, 3)]);
    const OF_W: &str = "cannot 0 3 3 1\nd 1 0\nd 0 1\nd 0 0\nr 0 0 3\n";

    const NONE: (u64, u64, u64) = (0, 0, 0);
    const AMPLE: u32 = 100;

    fn bytes((n, rules): (u8, &[(u64, u64)])) -> Vec<u8> {
        let mut out = vec![n, rules.len() as u8, 0];
        rules.iter().for_each(|rule| out.extend(rule.0.to_le_bytes()));
        rules.iter().for_each(|rule| out.extend(rule.1.to_le_bytes()));
        out
    }

    fn of_bytes(
        book: &[u8],
        orders: &[(u64, u64, u64)],
        places: Places,
        allowance: u32,
    ) -> Result<Vec<String>, u32> {
        let order = |&(wanted, unwanted, standard)| Order { wanted, unwanted, standard };
        let orders: Vec<Order> = orders.iter().map(order).collect();
        let outcomes = morning(&Morning { book, orders: &orders, places, allowance })?;
        Ok(outcomes.iter().map(Outcome::to_string).collect())
    }

    /// So many empty orders against a book, with derived tables of these lengths.
    fn empty_orders(
        book: (u8, &[(u64, u64)]),
        orders: usize,
        derived: [usize; 2],
        allowance: u32,
    ) -> Vec<String> {
        let places = Places { derived, records: [64 * orders; 3] };
        of_bytes(&bytes(book), &vec![NONE; orders], places, allowance).unwrap()
    }

    #[test]
    fn unequal_tables_may_have_equal_parts() {
        assert_eq!(empty_orders(PAIR, 2, [4, 5], AMPLE), [OF_PAIR, OF_PAIR]);
        assert_eq!(empty_orders(PAIR, 1, [4, 5], AMPLE), ["refused 9 0 0 0\n"]);
    }

    #[test]
    fn unequal_parts_are_refused() {
        assert_eq!(empty_orders(PAIR, 2, [3, 4], AMPLE), ["refused 9 0 0 0\n"; 2]);
        assert_eq!(empty_orders(PAIR, 3, [9, 8], AMPLE), ["refused 9 0 0 0\n"; 3]);
    }

    /// With 5 places each of two orders has 2, and W stops where its third rule is due; the remainder
    /// is nobody's.
    #[test]
    fn a_remainder_stays_unused() {
        let stopped = "stopped 11 3 2 1\nd 1 0\nd 0 1\nr 0 0 2\n";
        assert_eq!(empty_orders(W, 2, [5, 5], AMPLE), [stopped, stopped]);
        assert_eq!(empty_orders(W, 2, [6, 6], AMPLE), [OF_W, OF_W]);
        assert_eq!(empty_orders(W, 2, [7, 6], AMPLE), [OF_W, OF_W]);
    }

    #[test]
    fn fewer_places_than_orders_are_parts_without_places() {
        assert_eq!(empty_orders(PAIR, 3, [2, 0], AMPLE), ["stopped 11 1 0 0\n"; 3]);
    }

    #[test]
    fn the_limits_are_those_of_a_part() {
        assert_eq!(empty_orders(PAIR, 2, [4096, 4097], AMPLE), [OF_PAIR, OF_PAIR]);
        assert_eq!(empty_orders(PAIR, 2, [4098, 4098], AMPLE), ["refused 9 0 0 0\n"; 2]);
        assert_eq!(empty_orders(PAIR, 1, [4096, 4096], AMPLE), ["refused 9 0 0 0\n"]);
    }

    #[test]
    fn each_record_table_is_cut_by_its_own_length() {
        let of = |records| {
            let places = Places { derived: [2, 2], records };
            of_bytes(&bytes(PAIR), &[NONE; 2], places, AMPLE).unwrap()
        };
        assert_eq!(of([130, 128, 200]), [OF_PAIR, OF_PAIR]);
        assert_eq!(of([128, 129, 128]), [OF_PAIR, OF_PAIR]);
        for records in [[127, 200, 200], [200, 127, 200], [200, 200, 127]] {
            assert_eq!(of(records), ["refused 9 0 0 0\n"; 2]);
        }
    }

    #[test]
    fn each_order_has_the_full_allowance() {
        assert_eq!(empty_orders(W, 3, [9, 9], 3), [OF_W; 3]);
        assert_eq!(empty_orders(PAIR, 16, [16, 16], 1), [OF_PAIR; 16]);
        assert_eq!(empty_orders(PAIR, 2, [2, 2], 0), ["stopped 10 0 0 0\n"; 2]);
    }

    /// n 1 without rules: the order that wants option 2 is refused, and so is the one that wants and
    /// does not want option 1; the others can be built without a branching.
    #[test]
    fn a_refused_order_does_not_hold_up_the_next() {
        let orders = [NONE, (2, 0, 0), (0, 0, 1), (1, 1, 0), (0, 0, 2), NONE];
        let places = Places::equal(0, 64 * orders.len());
        let can = "can 0 0 0 1\nr 0 0 1\n";
        let due = [can, "refused 7 0 0 0\n", can, "refused 8 0 0 0\n", "refused 12 0 0 0\n", can];
        assert_eq!(of_bytes(&bytes((1, &[])), &orders, places, 0).unwrap(), due);
    }

    #[test]
    fn a_bad_book_answers_every_order() {
        let places = Places::equal(0, 0);
        let orders = [NONE, (2, 0, 0), (1, 1, 0)];
        assert_eq!(of_bytes(&[2, 0], &orders, places, 0).unwrap(), ["refused 1 0 0 0\n"; 3]);
        let both = bytes((1, &[(1, 1)]));
        assert_eq!(of_bytes(&both, &orders, places, 0).unwrap(), ["refused 6 0 0 0\n"; 3]);
    }

    #[test]
    fn the_number_of_orders_is_judged_before_everything() {
        let of = |book: &[u8], orders: usize| {
            of_bytes(book, &vec![NONE; orders], Places::equal(32, 1024), AMPLE)
                .map(|outcomes| outcomes.len())
        };
        let book = bytes(PAIR);
        assert_eq!([of(&book, 0), of(&book, 17)], [Err(13), Err(13)]);
        assert_eq!([of(&[], 0), of(&[], 17)], [Err(13), Err(13)]);
        assert_eq!([of(&book, 1), of(&book, 16)], [Ok(1), Ok(16)]);
    }
}
