//! The answer to a check, and the word that the library returns it in.

/// How a check ended.
#[derive(Clone, Copy, Debug, PartialEq, Eq)]
pub enum Kind {
    Can,
    Cannot,
    Refused,
    Stopped,
}

/// The answer: how the check ended, the number of the refusal or stop (0 for a verdict), and the
/// three counts.
#[derive(Clone, Copy, Debug, PartialEq, Eq)]
pub struct Answer {
    pub kind: Kind,
    pub number: u32,
    pub branchings: u32,
    pub derived: usize,
    pub records: usize,
}

/// The bits of each part of the word, lowest part first.
const KIND: u32 = 2;
const NUMBER: u32 = 6;
const BRANCHINGS: u32 = 32;
const DERIVED: u32 = 12;
const RECORDS: u32 = 7;

impl Answer {
    /// The answer in a word.
    pub fn of_word(word: u64) -> Answer {
        let mut rest = word;
        let mut next = |bits: u32| {
            let part = rest % (1 << bits);
            rest >>= bits;
            part
        };
        Answer {
            kind: match next(KIND) {
                0 => Kind::Can,
                1 => Kind::Cannot,
                2 => Kind::Refused,
                _ => Kind::Stopped,
            },
            number: next(NUMBER) as u32,
            branchings: next(BRANCHINGS) as u32,
            derived: next(DERIVED) as usize,
            records: next(RECORDS) as usize,
        }
    }
}

#[cfg(test)]
mod tests {
    use super::*;

    fn answer(kind: Kind, number: u32, counts: (u32, usize, usize)) -> Answer {
        let (branchings, derived, records) = counts;
        Answer { kind, number, branchings, derived, records }
    }

    #[test]
    fn each_kind_with_its_number() {
        assert_eq!(Answer::of_word(0), answer(Kind::Can, 0, (0, 0, 0)));
        assert_eq!(Answer::of_word(1), answer(Kind::Cannot, 0, (0, 0, 0)));
        assert_eq!(Answer::of_word(38), answer(Kind::Refused, 9, (0, 0, 0)));
        assert_eq!(Answer::of_word(50), answer(Kind::Refused, 12, (0, 0, 0)));
        assert_eq!(Answer::of_word(3 + 4 * 11), answer(Kind::Stopped, 11, (0, 0, 0)));
    }

    #[test]
    fn each_count_stands_in_its_own_bits() {
        let (branching, derived, record) = (1 << 8, 1 << 40, 1 << 52);
        assert_eq!(Answer::of_word(branching), answer(Kind::Can, 0, (1, 0, 0)));
        assert_eq!(Answer::of_word(derived), answer(Kind::Can, 0, (0, 1, 0)));
        assert_eq!(Answer::of_word(record), answer(Kind::Can, 0, (0, 0, 1)));
        let word = 1 + 3 * branching + 3 * derived + record;
        assert_eq!(Answer::of_word(word), answer(Kind::Cannot, 0, (3, 3, 1)));
    }

    /// The word is the one on the page crates/answer/specs/Demands.antt.
    #[test]
    fn the_largest_parts_do_not_run_over() {
        let counts = (u32::MAX, 4095, 127);
        assert_eq!(Answer::of_word(576460752303423275), answer(Kind::Stopped, 10, counts));
        assert_eq!(Answer::of_word((1 << 59) - 1), answer(Kind::Stopped, 63, counts));
    }
}
