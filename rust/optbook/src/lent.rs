//! The tables that are lent to the library, with a part for each order.

use crate::engine::{Answer, Checked, Record};
use crate::Rule;
use optcheck::{part, Tables};

/// An order's places for records.
const RECORD_PLACES: usize = 64;

/// The fitted and the left-out words of derived rules, and the decided, fitted and struck options of
/// records.
pub struct Lent {
    orders: usize,
    tables: [Vec<u64>; 5],
}

impl Lent {
    /// Tables for so many orders, each with so many places for derived rules.
    pub fn new(orders: usize, places: usize) -> Lent {
        let [derived, records] = [places, RECORD_PLACES];
        let parts = [derived, derived, records, records, records];
        Lent { orders, tables: parts.map(|places| vec![0; orders * places]) }
    }

    pub fn tables(&mut self) -> Tables<'_> {
        let [pos, neg, decided, trues, redundant] = &mut self.tables;
        Tables { pos, neg, decided, trues, redundant }
    }

    /// What the check of the order with this index ends with: its answer, and what stands in the
    /// places that it counts in the order's parts.
    pub fn checked(&self, index: usize, answer: Answer) -> Checked {
        let [pos, neg, decided, trues, redundant] =
            self.tables.each_ref().map(|table| &table[part(table.len(), self.orders, index)]);
        let rule = |i| Rule { fitted: pos[i], left_out: neg[i] };
        let record = |i| Record { decided: decided[i], fitted: trues[i], struck: redundant[i] };
        Checked {
            answer,
            derived: (0..answer.derived).map(rule).collect(),
            records: (0..answer.records).map(record).collect(),
        }
    }
}

#[cfg(test)]
mod tests {
    use super::*;
    use crate::engine::Kind;

    fn answer(derived: usize, records: usize) -> Answer {
        Answer { kind: Kind::Cannot, number: 0, branchings: 5, derived, records }
    }

    #[test]
    fn each_order_has_the_places_of_one_check() {
        let mut lent = Lent::new(3, 2048);
        let Tables { pos, neg, decided, trues, redundant } = lent.tables();
        assert_eq!([pos.len(), neg.len()], [3 * 2048; 2]);
        assert_eq!([decided.len(), trues.len(), redundant.len()], [3 * 64; 3]);
    }

    #[test]
    fn what_an_order_wrote_is_taken_from_its_part() {
        let mut lent = Lent::new(2, 3);
        let Tables { pos, neg, decided, trues, redundant } = lent.tables();
        (pos[3], neg[3], pos[4], neg[4]) = (1, 2, 4, 8);
        (decided[64], trues[64], redundant[64]) = (3, 1, 12);
        let checked = lent.checked(1, answer(2, 1));
        let rules: Vec<_> = checked.derived.iter().map(|r| (r.fitted, r.left_out)).collect();
        assert_eq!(rules, [(1, 2), (4, 8)]);
        assert_eq!(checked.records, [Record { decided: 3, fitted: 1, struck: 12 }]);
        assert_eq!(lent.checked(0, answer(0, 0)).records, []);
    }
}
