//! Two books joined into one: `optcheck_join`.

extern "C" {
    fn optcheck_join(
        first: *const u8,
        first_len: usize,
        second: *const u8,
        second_len: usize,
        pairs: *const u8,
        pairs_len: usize,
        book: *mut u8,
        book_len: usize,
        length: *mut usize,
    ) -> u32;
}

/// Joins two books and writes the joint book at the start of these bytes, of which the later ones are not
/// touched. It gives the number of its own. A pair is two bytes, an option of the first book and the one
/// of the second that is the same thing. A refusal is its number, and then no byte is touched; with
/// `BOOK_BYTES` bytes none is too few.
pub fn join(first: &[u8], second: &[u8], pairs: &[u8], book: &mut [u8]) -> Result<usize, u32> {
    let mut length = 0;
    match join_bytes(first, second, pairs, book, &mut length) {
        0 => Ok(length),
        refusal => Err(refusal),
    }
}

/// The same, with the joint book's length handed over: it gives 0, or the refusal's number, and then
/// neither the length nor a byte is touched.
pub fn join_bytes(
    first: &[u8],
    second: &[u8],
    pairs: &[u8],
    book: &mut [u8],
    length: &mut usize,
) -> u32 {
    // Safety: each pointer goes with the length of the slice that it is taken from, and all are borrowed
    // for the call. What is written overlaps nothing else.
    unsafe {
        optcheck_join(
            first.as_ptr(),
            first.len(),
            second.as_ptr(),
            second.len(),
            pairs.as_ptr(),
            pairs.len(),
            book.as_mut_ptr(),
            book.len(),
            length,
        )
    }
}

#[cfg(test)]
mod tests {
    use super::*;
    use crate::library::small::{book, lend, pair, q, rubbish};
    use crate::{check, Kind, Order, BOOK_BYTES};

    /// What stands in lent bytes before a call.
    const RUBBISH: u8 = 0xa5;

    /// The joint book, or the refusal's number. Lent are just enough bytes, and then more, and no other
    /// byte may change.
    fn joined(first: &[u8], second: &[u8], pairs: &[u8]) -> Result<Vec<u8>, u32> {
        let mut longest = vec![RUBBISH; BOOK_BYTES];
        let length = join(first, second, pairs, &mut longest)?;
        for room in [length, length + 1, length + 16, 2 * BOOK_BYTES] {
            let mut bytes = vec![RUBBISH; room];
            assert_eq!(join(first, second, pairs, &mut bytes), Ok(length));
            let (joint, rest) = bytes.split_at(length);
            assert_eq!(joint, &longest[..length]);
            assert!(rest.iter().all(|&byte| byte == RUBBISH));
        }
        longest.truncate(length);
        Ok(longest)
    }

    /// The number of the refusal, after which neither the length nor a byte has changed.
    fn refused(first: &[u8], second: &[u8], pairs: &[u8], room: usize) -> u32 {
        let (mut bytes, mut length) = (vec![RUBBISH; room], 77);
        let number = join_bytes(first, second, pairs, &mut bytes, &mut length);
        assert_eq!((length, bytes), (77, vec![RUBBISH; room]));
        assert_eq!(join(first, second, pairs, &mut vec![RUBBISH; room]), Err(number));
        number
    }

    /// Of n 2 the rule "1 or not 2", and of n 3 the rules "2 or not 1" and "3". Where option 1 of the
    /// second book is option 2 of the first, its others are 3 and 4.
    #[test]
    fn a_paired_option_is_its_partner_and_the_others_follow() {
        let [first, second] = [book(2, &[1, 2]), book(3, &[2, 4, 1, 0])];
        let due = book(4, &[1, 4, 8, 2, 2, 0]);
        assert_eq!(joined(&first, &second, &[2, 1]), Ok(due));
    }

    #[test]
    fn without_pairs_all_options_of_the_second_book_follow() {
        let [first, second] = [book(2, &[1, 2]), book(3, &[2, 4, 1, 0])];
        assert_eq!(joined(&first, &second, &[]), Ok(book(5, &[1, 8, 16, 2, 4, 0])));
        assert_eq!(joined(&second, &first, &[]), Ok(book(5, &[2, 4, 8, 1, 0, 16])));
    }

    /// Options 1, 2 and 3 of the second book are 3, 1 and 2 of the first.
    #[test]
    fn pairs_may_stand_in_any_sequence_and_leave_none_over() {
        let due = book(3, &[3, 4, 0, 5, 2, 0, 0, 1, 6, 0, 4, 3]);
        for pairs in [[3, 1, 1, 2, 2, 3], [2, 3, 3, 1, 1, 2]] {
            assert_eq!(joined(&q(), &q(), &pairs), Ok(due.clone()));
        }
    }

    #[test]
    fn books_without_options_or_rules_are_joined_too() {
        let [empty, broken] = [book(0, &[]), book(0, &[0, 0])];
        assert_eq!(joined(&empty, &empty, &[]), Ok(empty.clone()));
        assert_eq!(joined(&broken, &empty, &[]), Ok(broken.clone()));
        assert_eq!(joined(&empty, &q(), &[]), Ok(q()));
        assert_eq!(joined(&q(), &empty, &[]), Ok(q()));
    }

    /// Of the marked book Q and of one that cannot be built.
    #[test]
    fn without_pairs_it_can_be_built_exactly_if_both_can() {
        for (first, second, kind) in [
            (q(), q(), Kind::Can),
            (q(), pair(), Kind::Cannot),
            (pair(), q(), Kind::Cannot),
            (pair(), pair(), Kind::Cannot),
        ] {
            let joint = joined(&first, &second, &[]).unwrap();
            let mut tables = rubbish([9, 9, 64, 64, 64]);
            let answer = check(&joint, Order::default(), 100, lend(&mut tables));
            assert_eq!(answer.kind, kind);
        }
    }

    #[test]
    fn the_first_book_is_judged_before_the_second_and_both_before_the_pairs() {
        let [above, twice] = [book(1, &[2, 0]), book(1, &[1, 1])];
        let bad: [&[u8]; 6] = [&[2, 0], &[65, 0, 0], &[1, 1, 4], &[1, 1, 0], &above, &twice];
        for (index, book) in bad.iter().enumerate() {
            let number = index as u32 + 1;
            for other in bad.iter().copied().chain([&q()[..]]) {
                assert_eq!(refused(book, other, &[9], 0), number);
            }
            assert_eq!(refused(&q(), book, &[9], 0), number);
        }
    }

    /// Each of them is refused for its pairs, however many bytes are lent.
    #[test]
    fn a_pair_is_whole_and_names_an_option_of_each_book_that_is_not_yet_paired() {
        let [two, three] = [book(2, &[]), book(3, &[])];
        let bad: [&[u8]; 13] = [
            &[1],
            &[1, 1, 2],
            &[0, 1],
            &[1, 0],
            &[3, 1],
            &[1, 4],
            &[65, 1],
            &[1, 65],
            &[255, 255],
            &[1, 1, 1, 2],
            &[1, 1, 2, 1],
            &[1, 1, 1, 1],
            &[1, 3, 2, 2, 1, 1],
        ];
        for pairs in bad {
            for room in [0, 3, BOOK_BYTES] {
                assert_eq!(refused(&two, &three, pairs, room), 22, "{pairs:?}");
            }
        }
        assert_eq!(joined(&two, &three, &[2, 3, 1, 2]), Ok(three.clone()));
    }

    #[test]
    fn a_joint_book_has_64_options_at_most() {
        let [many, few] = [book(40, &[1 << 39, 0]), book(25, &[1 << 24, 1])];
        assert_eq!(refused(&many, &few, &[], BOOK_BYTES), 23);
        let due = book(64, &[1 << 39, 1 << 63, 0, 4]);
        assert_eq!(joined(&many, &few, &[3, 1]), Ok(due));
        let full = book(64, &[]);
        assert_eq!(refused(&full, &full, &[64, 63, 63, 64], BOOK_BYTES), 23);
        let all: Vec<u8> = (1..=64).flat_map(|option| [option, 65 - option]).collect();
        assert_eq!(joined(&full, &full, &all), Ok(full.clone()));
        assert_eq!(refused(&full, &full, &all[..126], BOOK_BYTES), 23);
    }

    #[test]
    fn a_joint_book_has_1024_rules_at_most() {
        let rules = |count: usize| book(1, &[vec![1; count], vec![0; count]].concat());
        assert_eq!(joined(&rules(1000), &rules(24), &[1, 1]), Ok(rules(1024)));
        for (first, second) in [(1000, 25), (1024, 1), (1, 1024), (1024, 1024)] {
            assert_eq!(refused(&rules(first), &rules(second), &[1, 1], 3 * BOOK_BYTES), 23);
        }
    }

    #[test]
    fn a_joint_book_that_does_not_fit_is_refused() {
        let length = joined(&q(), &pair(), &[]).unwrap().len();
        assert_eq!(length, 3 + 16 * 5);
        for room in [0, 1, 3, q().len(), length - 1] {
            assert_eq!(refused(&q(), &pair(), &[], room), 23);
        }
        let empty = book(0, &[]);
        for room in [0, 1, 2] {
            assert_eq!(refused(&empty, &empty, &[], room), 23);
        }
    }
}
