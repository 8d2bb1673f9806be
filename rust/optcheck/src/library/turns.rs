//! The buyer and the planner take turns: `optcheck_turns`.

use crate::{Order, Response, Turns};

extern "C" {
    fn optcheck_turns(
        book: *const u8,
        book_len: usize,
        wanted: u64,
        unwanted: u64,
        standard: u64,
        forced: *mut u32,
        to_out: *mut u32,
        to_fitted: *mut u32,
    ) -> u32;
}

/// Whether the planner can force a plant that keeps book and order, where buyer and planner settle the free
/// options in ascending number, the buyer first, and the planner's answers to the buyer's two first choices.
/// A refusal is its number.
pub fn turns(book: &[u8], order: Order) -> Result<Turns, u32> {
    let (mut forced, mut to_out, mut to_fitted) = (0, 0, 0);
    match turns_words(book, order, &mut forced, &mut to_out, &mut to_fitted) {
        0 => Ok(Turns {
            forced: forced != 0,
            to_out: Response::of_word(to_out),
            to_fitted: Response::of_word(to_fitted),
        }),
        refusal => Err(refusal),
    }
}

/// The same with words: the verdict and the two answers are handed over. It gives 0, or the refusal's number,
/// and then none of the three is touched.
pub fn turns_words(
    book: &[u8],
    order: Order,
    forced: &mut u32,
    to_out: &mut u32,
    to_fitted: &mut u32,
) -> u32 {
    let Order { wanted, unwanted, standard } = order;
    // Safety: the pointer goes with the length of the slice that it is taken from, and the slice and the
    // three words are borrowed for the call.
    unsafe {
        optcheck_turns(
            book.as_ptr(),
            book.len(),
            wanted,
            unwanted,
            standard,
            forced,
            to_out,
            to_fitted,
        )
    }
}

#[cfg(test)]
mod tests {
    use super::*;
    use crate::library::small::{book, lend, pair, q, rubbish};
    use crate::{check, Kind};

    const NONE: Option<Response> = None;
    const OUT: Option<Response> = Some(Response::Out);
    const FITTED: Option<Response> = Some(Response::Fitted);

    /// What stands in the three words before a call.
    const RUBBISH: u32 = 0xa5a5_5a5a;

    /// Whether it is forced, and the answers to "left out" and to "fitted", over two kinds of rubbish. Where
    /// it is forced, a check of the order can be built.
    fn settled(book: &[u8], words: [u64; 3]) -> (bool, Option<Response>, Option<Response>) {
        let order = order(words);
        let Turns { forced, to_out, to_fitted } = turns(book, order).unwrap();
        for rubbish in [RUBBISH, !RUBBISH] {
            let [mut verdict, mut first, mut second] = [rubbish; 3];
            assert_eq!(turns_words(book, order, &mut verdict, &mut first, &mut second), 0);
            assert_eq!(verdict, u32::from(forced));
            assert!(first < 3 && second < 3, "{first} {second}");
            assert_eq!([first, second].map(Response::of_word), [to_out, to_fitted]);
        }
        if forced {
            let mut tables = rubbish([100, 100, 64, 64, 64]);
            assert_eq!(check(book, order, 1000, lend(&mut tables)).kind, Kind::Can);
        }
        (forced, to_out, to_fitted)
    }

    fn order([wanted, unwanted, standard]: [u64; 3]) -> Order {
        Order { wanted, unwanted, standard }
    }

    /// The buyer settles option 1 and the planner option 2.
    #[test]
    fn of_two_free_options_the_planner_settles_the_second() {
        let of = |words: &[u64]| settled(&book(2, words), [0; 3]);
        assert_eq!(of(&[]), (true, OUT, OUT)); // both answers serve: left out
        assert_eq!(of(&[3, 0]), (true, FITTED, OUT)); // "1 or 2"
        assert_eq!(of(&[0, 3]), (true, OUT, OUT)); // "not 1 or not 2"
        assert_eq!(of(&[1, 2, 2, 1]), (true, OUT, FITTED)); // "1 or not 2", "2 or not 1"
        assert_eq!(of(&[3, 0, 0, 3]), (true, FITTED, OUT)); // "1 or 2", "not 1 or not 2"
        assert_eq!(of(&[2, 0]), (true, FITTED, FITTED)); // "2"
        assert_eq!(of(&[1, 0]), (false, NONE, OUT)); // "1", which is the buyer's
        assert_eq!(of(&[0, 1]), (false, OUT, NONE)); // "not 1"
        assert_eq!(of(&[1, 2, 0, 0]), (false, NONE, FITTED)); // "1", "2"
        assert_eq!(of(&[0, 0]), (false, NONE, NONE)); // the empty rule
    }

    /// The buyer settles options 1 and 3, and the planner options 2 and 4.
    #[test]
    fn later_options_are_settled_in_turn_too() {
        let three = |words: &[u64]| settled(&book(3, words), [0; 3]);
        assert_eq!(three(&[6, 0]), (true, FITTED, FITTED)); // "2 or 3"
        assert_eq!(three(&[4, 1]), (false, OUT, NONE)); // "3 or not 1"
        assert_eq!(three(&[4, 0]), (false, NONE, NONE)); // "3"
        let four = |words: &[u64]| settled(&book(4, words), [0; 3]);
        assert_eq!(four(&[8, 4, 4, 8]), (true, OUT, OUT)); // 4 is as 3 is
        assert_eq!(four(&[4, 2, 2, 4]), (false, NONE, NONE)); // 3 is as 2 is
        assert_eq!(four(&[8, 0, 0, 9]), (false, OUT, NONE)); // "4", "not 1 or not 4"
    }

    /// The rules "1 or 2", "not 1 or not 2" and "4 or not 3".
    #[test]
    fn what_the_order_settles_is_no_turn() {
        let of = |words| settled(&book(4, &[3, 0, 8, 0, 3, 4]), words);
        // 2 is the other of 1, and 4 is fitted if 3 is
        assert_eq!(of([0, 0, 0]), (true, FITTED, OUT));
        // 1 must be left out, and 3 too, since 4 is the buyer's
        assert_eq!(of([2, 0, 0]), (false, OUT, NONE));
        // 2 must be fitted, and 3 left out
        assert_eq!(of([0, 1, 0]), (false, NONE, OUT));
        // 3 is the buyer's, and 4 the planner's
        assert_eq!(of([1, 2, 0]), (true, OUT, FITTED));
        assert_eq!(of([0, 2, 3]), (true, OUT, FITTED));
    }

    /// The rules of the test above.
    #[test]
    fn without_a_second_free_option_there_is_no_answer() {
        let of = |words| settled(&book(4, &[3, 0, 8, 0, 3, 4]), words);
        // 3 alone is free, and 4 is fitted
        assert_eq!(of([9, 2, 0]), (true, NONE, NONE));
        assert_eq!(of([1, 2, 8]), (true, NONE, NONE));
        // 3 alone is free, and 4 is left out, standard though it is
        assert_eq!(of([1, 10, 8]), (false, NONE, NONE));
        // none is free: 1 and 4 are fitted, or 1 and 3
        assert_eq!(of([9, 6, 0]), (true, NONE, NONE));
        assert_eq!(of([5, 10, 0]), (false, NONE, NONE));
        // a book without options has one choice
        assert_eq!(settled(&book(0, &[]), [0; 3]), (true, NONE, NONE));
        assert_eq!(settled(&book(0, &[0, 0]), [0; 3]), (false, NONE, NONE));
    }

    /// The rule "2 or 3" of n 3. With option 1 free the planner settles option 2, and else option 3.
    #[test]
    fn a_standard_option_is_not_free() {
        let of = |words| settled(&book(3, &[6, 0]), words);
        assert_eq!(of([0, 0, 0]), (true, FITTED, FITTED));
        assert_eq!(of([0, 0, 1]), (true, FITTED, OUT));
        assert_eq!(of([1, 0, 1]), (true, FITTED, OUT));
        assert_eq!(of([0, 1, 1]), (true, FITTED, OUT));
    }

    /// The marked book Q, "1 or 2", "3 or not 1" and "not 2 or not 3", can be built, but not forced.
    #[test]
    fn what_can_be_built_need_not_be_forced() {
        // without 1, 2 is fitted and 3 must be left out; with it 3 must be fitted: 3 is the buyer's
        assert_eq!(settled(&q(), [0, 0, 0]), (false, NONE, NONE));
        // with 3 only 1 without 2 is kept, and without 3 only 2 without 1
        assert_eq!(settled(&q(), [4, 0, 0]), (false, NONE, OUT));
        assert_eq!(settled(&q(), [0, 4, 0]), (false, FITTED, NONE));
        // without 1, 2 must be fitted, which is the buyer's, and 3 left out
        assert_eq!(settled(&q(), [0, 1, 0]), (false, NONE, OUT));
        assert_eq!(settled(&pair(), [0; 3]), (false, NONE, NONE));
    }

    /// Of 64 options the last 12 are free: option 54 must be as 53 is, 56 as 55, and so on to 64 as 63.
    #[test]
    fn twelve_options_may_be_free() {
        let lower: Vec<u64> = (52..64).step_by(2).map(|bit| 1 << bit).collect();
        let upper: Vec<u64> = lower.iter().map(|option| option << 1).collect();
        let equal = book(64, &[&lower[..], &upper, &upper, &lower].concat());
        let others = u64::MAX >> 12;
        assert_eq!(settled(&equal, [0, others, 0]), (true, OUT, FITTED));
        assert_eq!(settled(&equal, [others, 0, 0]), (true, OUT, FITTED));
        assert_eq!(settled(&equal, [1, 2, others]), (true, OUT, FITTED));
        // without 53, too, 55 is the planner's and 56 the buyer's
        assert_eq!(settled(&equal, [0, others << 1 | 1, 0]), (false, NONE, NONE));
    }

    #[test]
    fn a_refusal_touches_nothing() {
        let [above, twice] = [book(1, &[2, 0]), book(1, &[1, 1])];
        let [few, many, full] = [book(12, &[]), book(13, &[]), book(64, &[])];
        let refused: [(&[u8], [u64; 3], u32); 16] = [
            (&[13, 0], [1 << 13, 0, 0], 1),
            (&[65, 0, 0], [0; 3], 2),
            (&[13, 1, 4], [0; 3], 3),
            (&[13, 1, 0], [0; 3], 4),
            (&above, [3, 1, 4], 5),
            (&twice, [3, 1, 4], 6),
            (&many, [1 << 13, 0, 0], 7),
            (&many, [0, 1 << 13, 0], 7),
            (&many, [1 << 63, 1 << 63, 1 << 63], 7),
            (&few, [1, 1, 1 << 12], 8),
            (&many, [0, 0, 1 << 13], 12),
            (&full, [0; 3], 16),
            (&many, [0; 3], 16),
            (&full, [0, u64::MAX >> 13, 0], 16),
            (&full, [u64::MAX >> 13, 0, 1], 16),
            (&full, [1, 2, u64::MAX << 15], 16),
        ];
        for (book, words, number) in refused {
            let [mut forced, mut to_out, mut to_fitted] = [RUBBISH, !RUBBISH, RUBBISH];
            let order = order(words);
            let given = turns_words(book, order, &mut forced, &mut to_out, &mut to_fitted);
            assert_eq!(given, number, "{words:?}");
            assert_eq!([forced, to_out, to_fitted], [RUBBISH, !RUBBISH, RUBBISH]);
            assert_eq!(turns(book, order), Err(number));
        }
        assert_eq!(settled(&few, [0; 3]), (true, OUT, OUT));
        assert_eq!(settled(&many, [0, 0, 1]), (true, OUT, OUT));
        assert_eq!(settled(&full, [1, 2, u64::MAX << 14]), (true, OUT, OUT));
    }
}
