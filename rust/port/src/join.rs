//! Two books joined into one: options that are the same thing are paired, and the second book's other
//! options follow the first book's.

use crate::book::{self, Book, OPTIONS, RULES};
use crate::words::Rule;

/// A joint book is this many bytes, and so many for each rule.
const HEAD: usize = 3;
const RULE: usize = 16;

/// An option by its number in a book, from 1 on.
type Number = u32;

/// An option of the joint book: its number in each of the two books, where it has one.
struct Joint {
    first: Option<Number>,
    second: Option<Number>,
}

/// The joint book's bytes, at most as many as there is room for; or the number of the refusal: 1 to 6 of the
/// first book, then of the second, 22 or 23.
pub fn join(first: &[u8], second: &[u8], pairs: &[u8], room: usize) -> Result<Vec<u8>, u32> {
    let (first, second) = (book::read(first)?, book::read(second)?);
    let pairs = read_pairs(pairs, &first, &second)?;
    let options = joint_options(&first, &second, &pairs);
    let rules = first.rules.len() + second.rules.len();
    if options.len() > OPTIONS || rules > RULES || HEAD + RULE * rules > room {
        return Err(23);
    }
    let of_first =
        first.rules.iter().map(|&rule| joint_rule(rule, &options, |option| option.first));
    let of_second =
        second.rules.iter().map(|&rule| joint_rule(rule, &options, |option| option.second));
    Ok(book_bytes(options.len(), &of_first.chain(of_second).collect::<Vec<Rule>>()))
}

/// The pairs of these bytes. A pair is whole, its options are those of their books, and no earlier pair has
/// one of them.
fn read_pairs(bytes: &[u8], first: &Book, second: &Book) -> Result<Vec<(Number, Number)>, u32> {
    let mut pairs: Vec<(Number, Number)> = Vec::new();
    for pair in bytes.chunks(2) {
        let &[a, b] = pair else { return Err(22) };
        let (a, b) = (Number::from(a), Number::from(b));
        let is_in = |option, book: &Book| (1..=book.n).contains(&option);
        let is_paired = pairs.iter().any(|pair| pair.0 == a || pair.1 == b);
        if !is_in(a, first) || !is_in(b, second) || is_paired {
            return Err(22);
        }
        pairs.push((a, b));
    }
    Ok(pairs)
}

/// The options of the joint book: the first book's, and then those of the second that are not paired.
fn joint_options(first: &Book, second: &Book, pairs: &[(Number, Number)]) -> Vec<Joint> {
    let partner = |option| pairs.iter().find(|pair| pair.0 == option).map(|pair| pair.1);
    let is_free = |option: &Number| pairs.iter().all(|pair| pair.1 != *option);
    let of_first = |option| Joint { first: Some(option), second: partner(option) };
    let of_second = |option| Joint { first: None, second: Some(option) };
    let rest = (1..=second.n).filter(is_free).map(of_second);
    (1..=first.n).map(of_first).chain(rest).collect()
}

/// A book's rule in the joint book: an option is an entry there where it is one by its number in this book.
fn joint_rule(rule: Rule, options: &[Joint], number: impl Fn(&Joint) -> Option<Number>) -> Rule {
    let mut joint = Rule { fitted: 0, left_out: 0 };
    for (place, option) in options.iter().enumerate() {
        let Some(number) = number(option) else { continue };
        let entry = |word: u64| word >> (number - 1) & 1;
        joint.fitted |= entry(rule.fitted) << place;
        joint.left_out |= entry(rule.left_out) << place;
    }
    joint
}

/// The bytes of a book.
fn book_bytes(options: usize, rules: &[Rule]) -> Vec<u8> {
    let mut bytes = vec![options as u8, rules.len() as u8, (rules.len() >> 8) as u8];
    rules.iter().for_each(|rule| bytes.extend(rule.fitted.to_le_bytes()));
    rules.iter().for_each(|rule| bytes.extend(rule.left_out.to_le_bytes()));
    bytes
}

#[cfg(test)]
mod tests {
    use super::*;

    const AMPLE: usize = 1 << 20;

    /// The bytes of a book of n options with these rules.
    fn book(n: usize, rules: &[(u64, u64)]) -> Vec<u8> {
        let rules: Vec<Rule> =
            rules.iter().map(|&(fitted, left_out)| Rule { fitted, left_out }).collect();
        book_bytes(n, &rules)
    }

    /// Three options, the rules "1 or 2", "3 or not 1" and "not 2 or not 3".
    fn three() -> Vec<u8> {
        book(3, &[(3, 0), (4, 1), (0, 6)])
    }

    #[test]
    fn without_pairs_the_second_books_options_follow_all_of_the_first() {
        let due = book(5, &[(1, 2), (12, 0), (16, 4), (0, 24)]);
        assert_eq!(join(&book(2, &[(1, 2)]), &three(), &[], AMPLE), Ok(due));
        let due = book(5, &[(3, 0), (4, 1), (0, 6), (8, 16)]);
        assert_eq!(join(&three(), &book(2, &[(1, 2)]), &[], AMPLE), Ok(due));
    }

    /// Option 2 of the second book is option 1 of the first; its options 1 and 3 become 3 and 4.
    #[test]
    fn a_paired_option_is_its_partner_and_the_others_close_up() {
        let due = book(4, &[(1, 2), (5, 0), (8, 4), (0, 9)]);
        assert_eq!(join(&book(2, &[(1, 2)]), &three(), &[1, 2], AMPLE), Ok(due));
    }

    #[test]
    fn the_sequence_of_pairs_plays_no_part() {
        // Options 1, 2 and 3 of the second book are 3, 1 and 2 of the first.
        let due = book(3, &[(3, 0), (4, 1), (0, 6), (5, 0), (2, 4), (0, 3)]);
        for pairs in [[3, 1, 1, 2, 2, 3], [2, 3, 1, 2, 3, 1]] {
            assert_eq!(join(&three(), &three(), &pairs, AMPLE), Ok(due.clone()));
        }
    }

    #[test]
    fn no_options_and_no_rules_are_joined() {
        let (empty, broken) = (book(0, &[]), book(0, &[(0, 0)]));
        assert_eq!(join(&empty, &empty, &[], 3), Ok(empty.clone()));
        assert_eq!(join(&empty, &three(), &[], AMPLE), Ok(three()));
        assert_eq!(join(&three(), &empty, &[], AMPLE), Ok(three()));
        assert_eq!(join(&broken, &broken, &[], AMPLE), Ok(book(0, &[(0, 0), (0, 0)])));
    }

    #[test]
    fn the_first_books_refusal_comes_before_the_seconds_and_both_before_22() {
        let faulty = |number| match number {
            1 => vec![2, 0],
            2 => vec![65, 0, 0],
            3 => vec![1, 1, 4],
            4 => vec![1, 1, 0],
            5 => book(1, &[(2, 0)]),
            _ => book(1, &[(1, 1)]),
        };
        for first in 1..=6 {
            for second in 1..=6 {
                assert_eq!(join(&faulty(first), &faulty(second), &[0], 0), Err(first));
            }
            assert_eq!(join(&faulty(first), &three(), &[0], 0), Err(first));
            assert_eq!(join(&three(), &faulty(first), &[0], 0), Err(first));
        }
    }

    #[test]
    fn each_fault_of_pairs_comes_before_23() {
        let (two, three) = (book(2, &[]), three());
        let faults: [&[u8]; 11] = [
            &[1],
            &[1, 1, 2],
            &[0, 1],
            &[1, 0],
            &[3, 1],
            &[1, 4],
            &[1, 255],
            &[1, 1, 1, 2],
            &[1, 2, 2, 2],
            &[1, 2, 1, 2],
            &[2, 1, 1, 3, 2, 2],
        ];
        for pairs in faults {
            assert_eq!(join(&two, &three, pairs, 0), Err(22), "{pairs:?}");
            assert_eq!(join(&two, &three, pairs, AMPLE), Err(22), "{pairs:?}");
        }
        assert_eq!(join(&two, &three, &[2, 3, 1, 1], 0), Err(23));
        assert!(join(&two, &three, &[2, 3, 1, 1], AMPLE).is_ok());
    }

    #[test]
    fn the_limits_of_the_joint_book_are_those_of_a_book() {
        let last = |n: usize| book(n, &[(1 << (n - 1), 0)]);
        assert_eq!(join(&last(40), &last(25), &[], AMPLE), Err(23));
        let due = book(64, &[(1 << 39, 0), (1 << 63, 0)]);
        assert_eq!(join(&last(40), &last(24), &[], AMPLE), Ok(due.clone()));
        assert_eq!(join(&last(40), &last(25), &[7, 24], AMPLE), Ok(due));
        let all: Vec<u8> = (1..=64).flat_map(|option| [option, 65 - option]).collect();
        let due = book(64, &[(1 << 63, 0), (1, 0)]);
        assert_eq!(join(&last(64), &last(64), &all, AMPLE), Ok(due));
        assert_eq!(join(&last(64), &last(64), &all[2..], AMPLE), Err(23));
        let rules = |count: usize| book(1, &vec![(1, 0); count]);
        assert_eq!(join(&rules(1000), &rules(24), &[1, 1], AMPLE), Ok(rules(1024)));
        assert_eq!(join(&rules(1000), &rules(25), &[1, 1], AMPLE), Err(23));
        assert_eq!(join(&rules(1024), &rules(1024), &[], AMPLE), Err(23));
    }

    #[test]
    fn the_joint_book_has_room_or_is_refused() {
        let (one, three) = (book(1, &[(1, 0)]), three());
        assert_eq!(join(&one, &three, &[], 67).map(|bytes| bytes.len()), Ok(67));
        for room in [0, 3, 66] {
            assert_eq!(join(&one, &three, &[], room), Err(23));
        }
        assert_eq!(join(&book(0, &[]), &book(0, &[]), &[], 2), Err(23));
    }
}
