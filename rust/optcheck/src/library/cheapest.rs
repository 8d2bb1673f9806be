//! The cheapest plant: `optcheck_cheapest`.

use crate::{Order, Quote};

extern "C" {
    fn optcheck_cheapest(
        book: *const u8,
        book_len: usize,
        wanted: u64,
        unwanted: u64,
        standard: u64,
        prices: *const u64,
        prices_len: usize,
        rebate: u64,
        can: *mut u32,
        total: *mut u64,
        due: *mut u64,
        choice: *mut u64,
    ) -> u32;
}

/// The cheapest choice of options that keeps book and order, or none where no choice does. The price of
/// option k, in cents, stands at place k - 1, and those of options above the book's last are not read; the
/// rebate is in thousandths. A refusal is its number.
pub fn cheapest(
    book: &[u8],
    order: Order,
    prices: &[u64],
    rebate: u64,
) -> Result<Option<Quote>, u32> {
    let (mut can, mut total, mut due, mut choice) = (0, 0, 0, 0);
    let given =
        cheapest_words(book, order, prices, rebate, &mut can, &mut total, &mut due, &mut choice);
    match given {
        0 => Ok((can != 0).then_some(Quote { total, due, choice })),
        refusal => Err(refusal),
    }
}

/// The same with words: whether there is such a choice, the least total, the amount due and the choice are
/// handed over, the last three as 0 where there is none. It gives 0, or the refusal's number, and then none of
/// the four is touched.
#[allow(clippy::too_many_arguments)]
pub fn cheapest_words(
    book: &[u8],
    order: Order,
    prices: &[u64],
    rebate: u64,
    can: &mut u32,
    total: &mut u64,
    due: &mut u64,
    choice: &mut u64,
) -> u32 {
    let Order { wanted, unwanted, standard } = order;
    // Safety: each pointer goes with the length of the slice that it is taken from, and the slices and the
    // four words are borrowed for the call.
    unsafe {
        optcheck_cheapest(
            book.as_ptr(),
            book.len(),
            wanted,
            unwanted,
            standard,
            prices.as_ptr(),
            prices.len(),
            rebate,
            can,
            total,
            due,
            choice,
        )
    }
}

#[cfg(test)]
mod tests {
    use super::*;
    use crate::library::small::{book, lend, pair, q, rubbish, RUBBISH};
    use crate::{check, Kind, PRICE, REBATE};

    /// What stands in the first of the four words before a call.
    const VERDICT: u32 = 0xa5a5_5a5a;

    /// The total, the amount due and the choice, or none, over two kinds of rubbish. A check of the order has
    /// the same verdict.
    fn quoted(
        book: &[u8],
        words: [u64; 3],
        prices: &[u64],
        rebate: u64,
    ) -> Option<(u64, u64, u64)> {
        let order = order(words);
        let quote = cheapest(book, order, prices, rebate).unwrap();
        let quote = quote.map(|Quote { total, due, choice }| (total, due, choice));
        for (mut can, rubbish) in [(VERDICT, RUBBISH), (!VERDICT, !RUBBISH)] {
            let mut numbers = [rubbish; 3];
            assert_eq!(handed(book, order, prices, rebate, &mut can, &mut numbers), 0);
            assert_eq!(can, u32::from(quote.is_some()));
            assert_eq!(numbers, quote.map_or([0; 3], <[u64; 3]>::from));
        }
        let mut tables = rubbish([100, 100, 64, 64, 64]);
        let kind = if quote.is_some() { Kind::Can } else { Kind::Cannot };
        assert_eq!(check(book, order, 1000, lend(&mut tables)).kind, kind);
        quote
    }

    /// The call with words, of which the last three are together.
    fn handed(
        book: &[u8],
        order: Order,
        prices: &[u64],
        rebate: u64,
        can: &mut u32,
        [total, due, choice]: &mut [u64; 3],
    ) -> u32 {
        cheapest_words(book, order, prices, rebate, can, total, due, choice)
    }

    fn order([wanted, unwanted, standard]: [u64; 3]) -> Order {
        Order { wanted, unwanted, standard }
    }

    /// Of the empty order without a rebate: the total and the choice.
    fn total_and_choice(book: &[u8], prices: &[u64]) -> Option<(u64, u64)> {
        let quote = quoted(book, [0; 3], prices, 0);
        quote.map(|(total, due, choice)| {
            assert_eq!(due, total);
            (total, choice)
        })
    }

    /// The rule "1 or 2".
    #[test]
    fn of_two_ways_the_cheaper_one_is_taken() {
        let of = |prices: &[u64]| total_and_choice(&book(2, &[3, 0]), prices);
        assert_eq!(of(&[5, 3]), Some((3, 2)));
        assert_eq!(of(&[3, 5]), Some((3, 1)));
        assert_eq!(of(&[1, 0]), Some((0, 2)));
        assert_eq!(of(&[PRICE, PRICE - 1]), Some((PRICE - 1, 2)));
    }

    /// The rules "1 or 3" and "2 or 3": 1 and 2 are fitted, which is the word 3, or 3 is, which is the word 4,
    /// or more.
    #[test]
    fn among_equals_the_choice_is_the_smallest_word() {
        let of = |prices: &[u64]| total_and_choice(&book(3, &[5, 6, 0, 0]), prices);
        assert_eq!(of(&[2, 2, 4]), Some((4, 3)));
        assert_eq!(of(&[2, 3, 4]), Some((4, 4)));
        assert_eq!(of(&[4, 0, 4]), Some((4, 3))); // the words 3, 4 and 6
        assert_eq!(of(&[0, 9, 9]), Some((9, 3))); // the words 3, 4 and 5
        assert_eq!(of(&[0, 0, 0]), Some((0, 3)));
        // what costs nothing is left out where no rule asks for it
        assert_eq!(total_and_choice(&book(2, &[]), &[0, 0]), Some((0, 0)));
        assert_eq!(total_and_choice(&book(2, &[2, 0]), &[0, 7]), Some((7, 2)));
        assert_eq!(total_and_choice(&book(2, &[3, 0]), &[0, 0]), Some((0, 1)));
    }

    /// The rule "2 or 3 or not 1".
    #[test]
    fn the_choice_keeps_the_completed_order() {
        let of = |words| quoted(&book(3, &[6, 1]), words, &[10, 5, 5], 0);
        assert_eq!(of([0, 0, 0]), Some((0, 0, 0)));
        assert_eq!(of([1, 0, 0]), Some((15, 15, 3)));
        assert_eq!(of([1, 2, 0]), Some((15, 15, 5)));
        assert_eq!(of([0, 0, 1]), Some((15, 15, 3)));
        assert_eq!(of([0, 2, 3]), Some((15, 15, 5)));
        assert_eq!(of([0, 7, 1]), Some((0, 0, 0)));
        assert_eq!(of([2, 0, 4]), Some((10, 10, 6)));
        assert_eq!(of([7, 0, 0]), Some((20, 20, 7)));
        assert_eq!(of([1, 6, 0]), None);
        assert_eq!(of([0, 6, 7]), None);
    }

    /// The marked book Q, "1 or 2", "3 or not 1" and "not 2 or not 3", is kept by 2 alone and by 1 and 3.
    #[test]
    fn where_no_choice_keeps_them_there_is_none() {
        let of = |words, prices: &[u64]| quoted(&q(), words, prices, 0);
        assert_eq!(of([0; 3], &[1, 3, 1]), Some((2, 2, 5)));
        assert_eq!(of([0; 3], &[1, 2, 1]), Some((2, 2, 2)));
        assert_eq!(of([4, 0, 0], &[PRICE, 0, PRICE]), Some((2 * PRICE, 2 * PRICE, 5)));
        assert_eq!(of([6, 0, 0], &[0; 3]), None);
        assert_eq!(of([0, 3, 0], &[0; 3]), None);
        assert_eq!(quoted(&pair(), [0; 3], &[7], 500), None);
        // a book without options has one choice, and no price
        assert_eq!(quoted(&book(0, &[]), [0; 3], &[], 0), Some((0, 0, 0)));
        assert_eq!(quoted(&book(0, &[0, 0]), [0; 3], &[], 0), None);
    }

    #[test]
    fn the_amount_due_is_rounded_to_the_cent_halves_up() {
        let of = |price, rebate| quoted(&book(1, &[1, 0]), [0; 3], &[price], rebate);
        let due = [
            (1, 499, 1),   // 0.501
            (1, 500, 1),   // 0.5
            (1, 501, 0),   // 0.499
            (3, 500, 2),   // 1.5
            (20, 25, 20),  // 19.5
            (60, 25, 59),  // 58.5
            (61, 25, 59),  // 59.475
            (999, 1, 998), // 998.001
            (1000, 1, 999),
            (500, 999, 1),               // 0.5
            (499, 999, 0),               // 0.499
            (9_999_999, 333, 6_669_999), // 6669999.333
            (PRICE, 1, 9_990_000),
            (PRICE, 0, PRICE),
            (PRICE, REBATE, 0),
            (0, 500, 0),
        ];
        for (price, rebate, due) in due {
            assert_eq!(of(price, rebate), Some((price, due, 1)), "{price} {rebate}");
        }
    }

    /// The rule "1 or 2": the choice is the one with the least total, and not one of those on which the same is
    /// due.
    #[test]
    fn the_rebate_has_no_part_in_the_choice() {
        let of = |rebate| quoted(&book(2, &[3, 0]), [0; 3], &[101, 100], rebate);
        assert_eq!(of(0), Some((100, 100, 2)));
        assert_eq!(of(990), Some((100, 1, 2)));
        assert_eq!(of(1000), Some((100, 0, 2)));
    }

    #[test]
    fn prices_above_the_last_option_are_not_read() {
        let either = book(2, &[3, 0]);
        let mut prices = [u64::MAX; 64];
        prices[..2].copy_from_slice(&[5, 3]);
        assert_eq!(quoted(&either, [0; 3], &prices, 0), Some((3, 3, 2)));
        assert_eq!(quoted(&either, [0; 3], &prices[..3], 0), Some((3, 3, 2)));
        assert_eq!(quoted(&either, [0; 3], &prices[..2], 0), Some((3, 3, 2)));
    }

    /// Of 64 options the last 20 are free: 45 or 46 is fitted, 47 or 48, and so on to 63 or 64.
    #[test]
    fn twenty_options_may_be_free() {
        let lower: Vec<u64> = (44..64).step_by(2).map(|bit| 1 << bit).collect();
        let either: Vec<u64> = lower.iter().map(|option| option | option << 1).collect();
        let ways = book(64, &[&either[..], &[0; 10]].concat());
        let others = u64::MAX >> 20;
        let lower: u64 = lower.iter().sum();
        let rising: Vec<u64> = (1..=64).collect();
        let falling: Vec<u64> = (1..=64).rev().collect();
        // 45 + 47 + ... + 63, and 19 + 17 + ... + 1
        assert_eq!(quoted(&ways, [0, others, 0], &rising, 0), Some((540, 540, lower)));
        assert_eq!(quoted(&ways, [0, others, 0], &falling, 0), Some((100, 100, lower << 1)));
        // and 1 + 2 + ... + 44 for the others
        assert_eq!(quoted(&ways, [others, 0, 0], &rising, 0), Some((1530, 1530, others | lower)));
        let due = Some((1527, 1527, others & !3 | lower));
        assert_eq!(quoted(&ways, [0, 3, others], &rising, 0), due);
    }

    #[test]
    fn the_highest_total_is_that_of_64_options() {
        let all = |rebate| quoted(&book(64, &[]), [u64::MAX, 0, 0], &[PRICE; 64], rebate);
        assert_eq!(all(0), Some((640_000_000, 640_000_000, u64::MAX)));
        assert_eq!(all(1), Some((640_000_000, 639_360_000, u64::MAX)));
        assert_eq!(all(REBATE), Some((640_000_000, 0, u64::MAX)));
    }

    /// A book, an order's words, prices and a rebate, and the number that they are refused with.
    type Refused<'a> = (&'a [u8], [u64; 3], &'a [u64], u64, u32);

    #[test]
    fn a_refusal_touches_nothing() {
        let [above, twice] = [book(1, &[2, 0]), book(1, &[1, 1])];
        let [two, many, full] = [book(2, &[]), book(21, &[]), book(64, &[])];
        let [low, high] = [&[0; 64][..], &[PRICE + 1; 64]];
        let refused: [Refused; 25] = [
            (&[21, 0], [1 << 21, 0, 0], high, 0, 1),
            (&[65, 0, 0], [0; 3], high, 0, 2),
            (&[21, 1, 4], [0; 3], high, 0, 3),
            (&[21, 1, 0], [0; 3], high, 0, 4),
            (&above, [3, 1, 4], high, 0, 5),
            (&twice, [3, 1, 4], high, 0, 6),
            (&many, [1 << 21, 0, 0], high, 0, 7),
            (&many, [0, 1 << 21, 0], &[], 0, 7),
            (&many, [1, 1, 1 << 21], high, 1001, 8),
            (&many, [0, 0, 1 << 21], high, 1001, 12),
            (&two, [0, 0, 4], &[], 1001, 12),
            (&many, [0; 3], low, 0, 17),
            (&many, [0; 3], high, 0, 17),
            (&many, [0; 3], &[], 1001, 17),
            (&full, [1, 2, u64::MAX << 23], low, 0, 17),
            (&two, [0; 3], high, 0, 18),
            (&two, [0; 3], &[0, PRICE + 1], 0, 18),
            (&two, [0; 3], &[u64::MAX, 0], 0, 18),
            (&two, [1, 2, 0], &[0, 1 << 32], 0, 18),
            (&two, [0; 3], &[0], 0, 18),
            (&two, [0; 3], &[], 0, 18),
            (&two, [0; 3], low, 1001, 18),
            (&two, [0; 3], low, u64::MAX, 18),
            (&pair(), [0; 3], &[0], 1 << 32, 18),
            (&full, [1, 2, u64::MAX << 22], &[0; 63], 0, 18),
        ];
        for (book, words, prices, rebate, number) in refused {
            let order = order(words);
            let rubbish = [RUBBISH, !RUBBISH, RUBBISH];
            let (mut can, mut numbers) = (VERDICT, rubbish);
            let given = handed(book, order, prices, rebate, &mut can, &mut numbers);
            assert_eq!(given, number, "{words:?} {rebate}");
            assert_eq!((can, numbers), (VERDICT, rubbish));
            assert_eq!(cheapest(book, order, prices, rebate), Err(number));
        }
        assert_eq!(quoted(&two, [0; 3], &[PRICE; 2], REBATE), Some((0, 0, 0)));
        assert_eq!(quoted(&many, [0, 0, 1], low, 0), Some((0, 0, 1)));
        let rest = u64::MAX << 22;
        assert_eq!(quoted(&full, [1, 2, rest], low, 0), Some((0, 0, rest | 1)));
    }
}
