//! The page for the file: the outcome of a check as lines of text.

use crate::Kind;

/// The bytes of a line: 40 characters and a line feed.
pub const PAGE_LINE: usize = 41;
/// The bytes of the longest page, which has a line for the answer and one for each of 2,048 derived
/// rules.
pub const PAGE_BYTES: usize = PAGE_LINE * (1 + 2048);

/// A page: how the check ended, and the text, a line for the answer and one for each derived rule.
#[derive(Clone, Debug, PartialEq, Eq)]
pub struct Page {
    pub kind: Kind,
    pub text: String,
}

impl Page {
    /// The page with this text, whose first word says how the check ended.
    pub fn of_text(text: String) -> Page {
        let kind = match text.split(' ').next() {
            Some("can") => Kind::Can,
            Some("cannot") => Kind::Cannot,
            Some("refused") => Kind::Refused,
            Some("stopped") => Kind::Stopped,
            other => panic!("no page begins with {other:?}"),
        };
        Page { kind, text }
    }
}

#[cfg(test)]
mod tests {
    use super::*;

    #[test]
    fn the_first_word_says_how_the_check_ended() {
        let words = [
            ("can", Kind::Can),
            ("cannot", Kind::Cannot),
            ("refused", Kind::Refused),
            ("stopped", Kind::Stopped),
        ];
        for (word, kind) in words {
            let text = format!("{word:<10}{:>10}{:>10}{:>10}\n", 0, 0, 0);
            assert_eq!(Page::of_text(text.clone()), Page { kind, text });
        }
    }

    #[test]
    fn the_longest_page_has_2049_lines() {
        assert_eq!(PAGE_BYTES, 84_009);
    }
}
