//! Tables and answers that are lent to a morning.

use super::{Lent, Table};
use optcheck::Tables;
use port::{Outcome, Places};

/// Lends tables of these lengths, and a place for the answer to each of so many orders, to a morning
/// that gives 0 or the number of its refusal, and takes the outcomes out. It is an error if a word is
/// no answer's, or if a place changed that is not counted; where it is refused, none may change, and
/// no answer.
pub fn lend(
    places: &Places,
    orders: usize,
    rubbish: u64,
    call: impl FnOnce(&mut [u64], Tables) -> u32,
) -> Result<Result<Vec<Outcome>, u32>, String> {
    let (mut lent, mut answers) = (Lent::new(places, rubbish), Table::new(orders, rubbish));
    match call(answers.lend(), lent.tables()) {
        0 => {
            answers.keeps_all_but(&[orders]).map_err(|what| format!("answers: {what}"))?;
            Ok(Ok(lent.outcomes(answers.lend())?))
        }
        refusal => {
            answers.keeps_all_but(&[]).map_err(|what| format!("answers: {what}"))?;
            lent.keep_all_but(&[])?;
            Ok(Err(refusal))
        }
    }
}

#[cfg(test)]
mod tests {
    use super::super::tests::{cannot, RUBBISH};
    use super::*;

    /// What is done to a morning's answers and tables.
    type Change = fn(&mut [u64], Tables);

    /// The word of refusal 7.
    const SEVEN: u64 = 2 + 4 * 7;

    /// Two orders with tables of lengths 5, 4, 130, 128 and 200: the parts have 2, 2, 65, 64 and 100
    /// places. The first is refused; the second has a rule and a record. Then a change is made.
    fn two_orders(change: Change) -> Result<String, String> {
        let places = Places { derived: [5, 4], records: [130, 128, 200] };
        let outcomes = lend(&places, 2, RUBBISH, |answers, mut tables| {
            answers.copy_from_slice(&[SEVEN, cannot(1, 1)]);
            (tables.pos[2], tables.neg[2]) = (1, 2);
            let Tables { decided, trues, redundant, .. } = &mut tables;
            (decided[65], trues[64], redundant[100]) = (12, 4, 3);
            change(answers, tables);
            0
        });
        outcomes.map(|outcomes| crate::question::in_turn(&outcomes))
    }

    #[test]
    fn an_orders_outcome_stands_in_its_own_part() {
        let due = "refused 7 0 0 0\ncannot 0 2 1 1\nd 1 2\nr 12 4 3\n";
        assert_eq!(two_orders(|_, _| ()), Ok(due.to_string()));
    }

    #[test]
    fn every_place_that_no_order_counts_is_looked_at() {
        let changes: [(Change, usize); 5] = [
            // The part of the order that is refused, the uncounted places of the other's part, and
            // the remainder.
            (|_, tables| tables.neg[0] = 0, 0),
            (|_, tables| tables.decided[64] = 0, 64),
            (|_, tables| tables.pos[3] = 0, 3),
            (|_, tables| tables.redundant[199] = 0, 199),
            (|_, tables| tables.pos[4] = 0, 4),
        ];
        for (change, place) in changes {
            let due = format!("place {place} was written, which is not counted");
            assert_eq!(two_orders(change), Err(due));
        }
    }

    #[test]
    fn the_five_highest_bits_of_each_answer_are_0() {
        let told = two_orders(|answers, _| answers[1] += 1 << 63).unwrap_err();
        assert_eq!(told, "the five highest bits of the answer 0x8010010000000201 are not 0");
    }

    #[test]
    fn a_count_stays_within_its_part() {
        let full = |answers: &mut [u64], _: Tables| answers[1] = cannot(3, 1);
        assert_eq!(two_orders(full), Err("a count of 3 in a table of 2".to_string()));
    }

    #[test]
    fn a_refused_morning_leaves_tables_and_answers() {
        let refused = |change: Change| {
            let call = |answers: &mut [u64], tables: Tables| {
                change(answers, tables);
                13
            };
            lend(&Places::equal(17, 17 * 64), 17, RUBBISH, call)
        };
        assert_eq!(refused(|_, _| ()), Ok(Err(13)));
        let told = refused(|answers, _| answers[16] = 0).unwrap_err();
        assert_eq!(told, "answers: place 16 was written, which is not counted");
        let told = refused(|_, tables| tables.trues[0] = 0).unwrap_err();
        assert_eq!(told, "place 0 was written, which is not counted");
        let none = lend(&Places::equal(4, 64), 0, RUBBISH, |answers, tables| {
            assert!(answers.is_empty());
            tables.neg[3] = 0;
            13
        });
        assert_eq!(none.unwrap_err(), "place 3 was written, which is not counted");
    }
}
