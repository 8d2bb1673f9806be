//! An order with options that are left open: `optcheck_undecided`.

use crate::{Answer, Kind, Order, Tables, Tried, Verdict};

extern "C" {
    fn optcheck_undecided(
        book: *const u8,
        book_len: usize,
        wanted: u64,
        unwanted: u64,
        standard: u64,
        open: u64,
        allowance: u32,
        verdict: *mut u32,
        setting: *mut u64,
        pos: *mut u64,
        pos_len: usize,
        neg: *mut u64,
        neg_len: usize,
        decided: *mut u64,
        decided_len: usize,
        trues: *mut u64,
        trues_len: usize,
        redundant: *mut u64,
        redundant_len: usize,
    ) -> u64;
}

/// Tries an order with every setting of its open options (`Order::with_setting`) in ascending order,
/// each with at most this many branchings and with tables that are 0 throughout. The first stop ends
/// it. The tables hold what the last setting wrote, and zeros after it. A refusal is its number, and
/// then no table is touched.
pub fn undecided(
    book: &[u8],
    order: Order,
    open: u64,
    allowance: u32,
    tables: Tables,
) -> Result<Tried, u32> {
    let (mut verdict, mut setting) = (0, 0);
    let word = undecided_words(book, order, open, allowance, &mut verdict, &mut setting, tables);
    match Answer::of_word(word) {
        Answer { kind: Kind::Refused, number, .. } => Err(number),
        last => Ok(Tried { verdict: Verdict::of_word(verdict), setting, last }),
    }
}

/// The same with words: verdict and setting are handed over, and it gives the last answer's. Where it
/// is refused, neither they nor the tables are touched.
pub fn undecided_words(
    book: &[u8],
    order: Order,
    open: u64,
    allowance: u32,
    verdict: &mut u32,
    setting: &mut u64,
    tables: Tables,
) -> u64 {
    let Order { wanted, unwanted, standard } = order;
    let Tables { pos, neg, decided, trues, redundant } = tables;
    // Safety: as of `check_word`; the verdict and the setting are borrowed for the call too.
    unsafe {
        optcheck_undecided(
            book.as_ptr(),
            book.len(),
            wanted,
            unwanted,
            standard,
            open,
            allowance,
            verdict,
            setting,
            pos.as_mut_ptr(),
            pos.len(),
            neg.as_mut_ptr(),
            neg.len(),
            decided.as_mut_ptr(),
            decided.len(),
            trues.as_mut_ptr(),
            trues.len(),
            redundant.as_mut_ptr(),
            redundant.len(),
        )
    }
}

#[cfg(test)]
mod tests {
    use super::*;
    use crate::library::small::{answer, book, lend, pair, q, rubbish, RUBBISH};

    const AMPLE: u32 = 100;
    const PLACES: [usize; 5] = [4, 4, 64, 65, 70];

    /// A table of this length with these words at its first places, and zeros after them.
    fn table(length: usize, written: &[u64]) -> Vec<u64> {
        let mut table = vec![0; length];
        table[..written.len()].copy_from_slice(written);
        table
    }

    /// n 1, the rule "not 1": left out it can be built without a branching, fitted it takes one, and
    /// one derived rule.
    fn not_one() -> Vec<u8> {
        book(1, &[0, 1])
    }

    /// Of the empty order, with tables of these lengths: what is answered, and the tables.
    fn empty_order(
        book: &[u8],
        open: u64,
        allowance: u32,
        lengths: [usize; 5],
    ) -> (Result<Tried, u32>, [Vec<u64>; 5]) {
        let mut tables = rubbish(lengths);
        let tried = undecided(book, Order::default(), open, allowance, lend(&mut tables));
        (tried, tables)
    }

    /// The marked book Q, option 3 wanted: it can be built without option 2, and with it, a marked
    /// order, it cannot.
    #[test]
    fn the_tables_hold_what_the_last_setting_wrote_and_zeros() {
        let mut tables = rubbish(PLACES);
        let order = Order { wanted: 4, ..Order::default() };
        let tried = undecided(&q(), order, 2, AMPLE, lend(&mut tables));
        let last = Answer { branchings: 2, derived: 2, ..answer(Kind::Cannot, 0, 1) };
        assert_eq!(tried, Ok(Tried { verdict: Verdict::Sometimes, setting: 2, last }));
        let due = [
            table(4, &[0, 0]),
            table(4, &[2, 0]),
            table(64, &[0]),
            table(65, &[0]),
            table(70, &[7]),
        ];
        assert_eq!(tables, due);
    }

    #[test]
    fn all_settings_or_none_can_be_built() {
        let (tried, tables) = empty_order(&book(1, &[]), 1, 0, [0, 0, 64, 64, 90]);
        let can = Answer { branchings: 0, derived: 0, ..answer(Kind::Can, 0, 1) };
        assert_eq!(tried, Ok(Tried { verdict: Verdict::Always, setting: 1, last: can }));
        assert_eq!(tables[4], table(90, &[1]));
        let (tried, _) = empty_order(&pair(), 1, AMPLE, PLACES);
        let cannot = answer(Kind::Cannot, 0, 1);
        assert_eq!(tried, Ok(Tried { verdict: Verdict::Never, setting: 1, last: cannot }));
    }

    #[test]
    fn with_nothing_open_the_order_itself_is_tried() {
        let (tried, tables) = empty_order(&pair(), 0, 1, [1, 1, 64, 64, 64]);
        let last = answer(Kind::Cannot, 0, 1);
        assert_eq!(tried, Ok(Tried { verdict: Verdict::Never, setting: 0, last }));
        assert_eq!(tables[4], table(64, &[1]));
    }

    /// The setting 0 writes a record, which is gone where the setting 1 stops before it writes one.
    #[test]
    fn a_stop_is_handed_over_with_its_setting() {
        let (tried, tables) = empty_order(&not_one(), 1, 0, PLACES);
        let ten = answer(Kind::Stopped, 10, 0);
        assert_eq!(tried, Ok(Tried { verdict: Verdict::Stopped, setting: 1, last: ten }));
        assert_eq!(tables, PLACES.map(|length| vec![0; length]));
        let (tried, _) = empty_order(&not_one(), 1, 1, [0, 0, 64, 64, 64]);
        let eleven = Answer { branchings: 1, ..answer(Kind::Stopped, 11, 0) };
        assert_eq!(tried, Ok(Tried { verdict: Verdict::Stopped, setting: 1, last: eleven }));
    }

    #[test]
    fn ten_options_may_be_open() {
        let (tried, _) = empty_order(&book(64, &[]), 0xffc << 52, 0, PLACES);
        let last = Answer { branchings: 0, derived: 0, ..answer(Kind::Can, 0, 64) };
        assert_eq!(tried, Ok(Tried { verdict: Verdict::Always, setting: 0xffc << 52, last }));
    }

    /// A book, the order's words, the open word and the lengths of the tables for derived rules.
    type Refused<'a> = (&'a [u8], [u64; 3], u64, [usize; 2]);

    #[test]
    fn a_refusal_touches_nothing() {
        let (few, many) = (book(3, &[]), book(64, &[]));
        let refused: [(Refused, u32); 12] = [
            ((&[3, 0], [0; 3], 0, [0, 0]), 1),
            ((&few, [8, 0, 0], 8, [0, 1]), 7),
            ((&few, [1, 1, 0], 1, [0, 1]), 8),
            ((&few, [1, 0, 8], 9, [0, 1]), 12),
            ((&few, [1, 0, 0], 9, [0, 1]), 19),
            ((&few, [0, 0, 0], 8, [0, 0]), 19),
            ((&many, [1, 0, 0], 0x7ff, [0, 1]), 19),
            ((&many, [0, 0, 0], 0x7ff << 53, [0, 0]), 19),
            ((&few, [1, 0, 0], 3, [0, 1]), 20),
            ((&few, [0, 2, 0], 3, [0, 0]), 20),
            ((&few, [0, 0, 0], 3, [0, 1]), 9),
            ((&few, [0, 0, 0], 0, [2049, 2049]), 9),
        ];
        for ((book, [wanted, unwanted, standard], open, [pos, neg]), number) in refused {
            let order = Order { wanted, unwanted, standard };
            let lengths = [pos, neg, 64, 64, 64];
            let mut tables = rubbish(lengths);
            let (mut verdict, mut setting) = (RUBBISH as u32, RUBBISH);
            let word = undecided_words(
                book,
                order,
                open,
                AMPLE,
                &mut verdict,
                &mut setting,
                lend(&mut tables),
            );
            assert_eq!(Answer::of_word(word), answer(Kind::Refused, number, 0));
            assert_eq!((verdict, setting), (RUBBISH as u32, RUBBISH), "{number}");
            assert_eq!(undecided(book, order, open, AMPLE, lend(&mut tables)), Err(number));
            assert_eq!(tables, rubbish(lengths), "{number}");
        }
    }

    #[test]
    fn a_standard_option_may_be_open() {
        let mut tables = rubbish(PLACES);
        let order = Order { standard: 1, ..Order::default() };
        let tried = undecided(&not_one(), order, 1, AMPLE, lend(&mut tables)).unwrap();
        assert_eq!(tried.verdict, Verdict::Sometimes);
    }
}
