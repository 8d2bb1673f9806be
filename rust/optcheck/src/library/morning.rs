//! Several orders of one book: `optcheck_morning`.

use crate::{Answer, Order, Tables};

extern "C" {
    fn optcheck_morning(
        book: *const u8,
        book_len: usize,
        orders: *const u64,
        orders_len: usize,
        allowance: u32,
        answers: *mut u64,
        answers_len: usize,
        pos: *mut u64,
        pos_len: usize,
        neg: *mut u64,
        neg_len: usize,
        decided: *mut u64,
        decided_len: usize,
        trues: *mut u64,
        trues_len: usize,
        redundant: *mut u64,
        redundant_len: usize,
    ) -> u32;
}

/// Checks each of a morning's orders against a book, each with at most this many branchings and in
/// its own `part` of the tables. The answers stand in the orders' sequence; a number of orders that
/// is not 1 to 16 is refusal 13, and then no table is touched.
pub fn morning(
    book: &[u8],
    orders: &[Order],
    allowance: u32,
    tables: Tables,
) -> Result<Vec<Answer>, u32> {
    let words: Vec<u64> = orders.iter().flat_map(|order| order.words()).collect();
    let mut answers = vec![0; orders.len()];
    match morning_words(book, &words, allowance, &mut answers, tables) {
        0 => Ok(answers.into_iter().map(Answer::of_word).collect()),
        refusal => Err(refusal),
    }
}

/// A morning as words: three for each order, wanted, unwanted and standard, and one for each answer.
/// It gives 0, or 13 where the number of answers is not 1 to 16 or there are not three times as many
/// words of orders; then neither answers nor tables are touched.
pub fn morning_words(
    book: &[u8],
    orders: &[u64],
    allowance: u32,
    answers: &mut [u64],
    tables: Tables,
) -> u32 {
    let Tables { pos, neg, decided, trues, redundant } = tables;
    // Safety: as of `check_word`.
    unsafe {
        optcheck_morning(
            book.as_ptr(),
            book.len(),
            orders.as_ptr(),
            orders.len(),
            allowance,
            answers.as_mut_ptr(),
            answers.len(),
            pos.as_mut_ptr(),
            pos.len(),
            neg.as_mut_ptr(),
            neg.len(),
            decided.as_mut_ptr(),
            decided.len(),
            trues.as_mut_ptr(),
            trues.len(),
            redundant.as_mut_ptr(),
            redundant.len(),
        )
    }
}

#[cfg(test)]
mod tests {
    use super::*;
    use crate::library::small::{answer, lend, pair, q, rubbish, RUBBISH};
    use crate::Kind;

    /// A table of this length with these words at these places, and rubbish elsewhere.
    fn table(length: usize, written: &[(usize, u64)]) -> Vec<u64> {
        let mut table = vec![RUBBISH; length];
        written.iter().for_each(|&(place, word)| table[place] = word);
        table
    }

    /// The marked book Q with three of its marked orders. The parts have 2, 2, 64, 65 and 66 places,
    /// and the first two tables leave remainders.
    #[test]
    fn each_order_writes_in_its_own_part() {
        let wanted = |wanted| Order { wanted, ..Order::default() };
        let mut tables = rubbish([7, 8, 192, 195, 198]);
        let answers = morning(&q(), &[wanted(0), wanted(1), wanted(6)], 2, lend(&mut tables));
        let can = Answer { branchings: 1, records: 2, ..answer(Kind::Can, 0, 0) };
        let cannot = Answer { branchings: 2, derived: 2, ..answer(Kind::Cannot, 0, 1) };
        assert_eq!(answers, Ok(vec![can, can, cannot]));
        let due = [
            table(7, &[(4, 0), (5, 0)]),
            table(8, &[(4, 2), (5, 0)]),
            table(192, &[(0, 1), (1, 1), (64, 1), (65, 1), (128, 0)]),
            table(195, &[(0, 0), (1, 0), (65, 1), (66, 1), (130, 0)]),
            table(198, &[(0, 4), (1, 6), (66, 2), (67, 6), (132, 7)]),
        ];
        assert_eq!(tables, due);
    }

    #[test]
    fn a_refused_order_leaves_its_part_and_the_next_goes_on() {
        let mut tables = rubbish([3, 3, 192, 192, 192]);
        let above = Order { wanted: 2, ..Order::default() };
        let orders = [Order::default(), above, Order::default()];
        let answers = morning(&pair(), &orders, 1, lend(&mut tables));
        let cannot = answer(Kind::Cannot, 0, 1);
        assert_eq!(answers, Ok(vec![cannot, answer(Kind::Refused, 7, 0), cannot]));
        assert_eq!(tables[0], table(3, &[(0, 0), (2, 0)]));
        assert_eq!(tables[4], table(192, &[(0, 1), (128, 1)]));
    }

    #[test]
    fn the_three_words_of_an_order_are_wanted_unwanted_and_standard() {
        let numbers = |wanted, unwanted, standard| {
            let mut tables = rubbish([1, 1, 64, 64, 64]);
            let order = Order { wanted, unwanted, standard };
            let answers = morning(&pair(), &[order], 1, lend(&mut tables)).unwrap();
            answers[0].number
        };
        assert_eq!([numbers(2, 0, 0), numbers(0, 2, 0), numbers(0, 0, 2)], [7, 7, 12]);
        assert_eq!([numbers(1, 1, 0), numbers(1, 0, 1), numbers(0, 1, 1)], [8, 0, 0]);
    }

    #[test]
    fn sixteen_orders_are_served_and_a_bad_book_is_every_orders_answer() {
        let orders = [Order::default(); 16];
        let mut tables = rubbish([16, 16, 1024, 1024, 1024]);
        let answers = morning(&pair(), &orders, 1, lend(&mut tables));
        assert_eq!(answers, Ok(vec![answer(Kind::Cannot, 0, 1); 16]));
        let mut tables = rubbish([16, 16, 1024, 1024, 1024]);
        let answers = morning(&[1, 0], &orders, 1, lend(&mut tables));
        assert_eq!(answers, Ok(vec![answer(Kind::Refused, 1, 0); 16]));
        assert_eq!(tables, rubbish([16, 16, 1024, 1024, 1024]));
    }

    /// So many words of orders and of answers, against a book that is refused too.
    #[test]
    fn a_number_of_orders_that_is_not_1_to_16_touches_nothing() {
        for (orders, answers) in [(0, 0), (51, 17), (0, 1), (5, 2), (7, 2), (3, 0), (48, 17)] {
            let mut tables = rubbish([16, 16, 1024, 1024, 1024]);
            let mut words = vec![RUBBISH; answers];
            for book in [&pair()[..], &[]] {
                let tables = lend(&mut tables);
                let number = morning_words(book, &vec![0; orders], 1, &mut words, tables);
                assert_eq!(number, 13, "{orders} words, {answers} answers");
            }
            assert_eq!(words, vec![RUBBISH; answers]);
            assert_eq!(tables, rubbish([16, 16, 1024, 1024, 1024]));
        }
        for orders in [0, 17] {
            let mut tables = rubbish([17, 17, 1088, 1088, 1088]);
            let orders = vec![Order::default(); orders];
            assert_eq!(morning(&pair(), &orders, 1, lend(&mut tables)), Err(13));
        }
    }
}
