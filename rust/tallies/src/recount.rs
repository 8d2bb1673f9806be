//! The tallies of a rule, counted anew from its entries, option by option.

use port::{Decisions, Rule};

/// A book has at most so many options.
pub const OPTIONS: usize = 64;

/// An entry of a rule: the option's index, counted from 0, and whether it is to be fitted.
#[derive(Clone, Copy, Debug, PartialEq, Eq)]
pub struct Entry {
    pub option: usize,
    fitted: bool,
}

/// What each option is: fitted or left out, where it is decided, and whether it is struck.
pub struct Options {
    decided: [Option<bool>; OPTIONS],
    struck: [bool; OPTIONS],
}

/// What the engine keeps of a rule: whether it names a struck option, how many decisions keep it,
/// and how many of its entries are undecided.
#[derive(Clone, Copy, Debug, Default, PartialEq, Eq)]
pub struct Tallies {
    names_struck: bool,
    keeping: u64,
    undecided: u64,
}

/// The entries of a rule.
pub fn entries(rule: Rule) -> Vec<Entry> {
    let mut entries = Vec::new();
    for option in 0..OPTIONS {
        if is_in(rule.fitted, option) {
            entries.push(Entry { option, fitted: true });
        }
        if is_in(rule.left_out, option) {
            entries.push(Entry { option, fitted: false });
        }
    }
    entries
}

impl Options {
    /// The options at these decisions, where this set is struck.
    pub fn at(decisions: Decisions, struck: u64) -> Options {
        let mut options = Options { decided: [None; OPTIONS], struck: [false; OPTIONS] };
        for option in 0..OPTIONS {
            if is_in(decisions.decided, option) {
                options.decided[option] = Some(is_in(decisions.fitted, option));
            }
            options.struck[option] = is_in(struck, option);
        }
        options
    }

    /// The tallies of a rule of these entries.
    pub fn tallies(&self, entries: &[Entry]) -> Tallies {
        let mut tallies = Tallies::default();
        for &Entry { option, fitted } in entries {
            tallies.undecided += u64::from(self.decided[option].is_none());
            tallies.keeping += u64::from(self.decided[option] == Some(fitted));
            tallies.names_struck |= self.struck[option];
        }
        tallies
    }
}

impl Tallies {
    /// The two counts in one word.
    pub fn word(self) -> u64 {
        2 * self.keeping + 256 * self.undecided
    }

    /// No decision keeps the rule and it names no struck option.
    pub fn is_in_play(self) -> bool {
        self.keeping == 0 && !self.names_struck
    }

    /// Whether the rule is in play, kept by no decision, and naming a struck option.
    pub fn rows(self) -> [bool; 3] {
        [self.is_in_play(), self.keeping == 0, self.names_struck]
    }
}

/// The option of this index is in the set.
fn is_in(set: u64, option: usize) -> bool {
    set & (1 << option) != 0
}

#[cfg(test)]
mod tests {
    use super::*;

    /// Options 1 and 64 are decided, 64 is fitted; option 3 is struck.
    fn tallies(fitted: u64, left_out: u64) -> Tallies {
        let decisions = Decisions { decided: 1 | 1 << 63, fitted: 1 << 63 };
        Options::at(decisions, 4).tallies(&entries(Rule { fitted, left_out }))
    }

    #[test]
    fn each_count_has_its_part_of_the_word() {
        let word = |fitted, left_out| tallies(fitted, left_out).word();
        assert_eq!(word(0, 0), 0);
        assert_eq!(word(4, 0), 256);
        assert_eq!(word(2, 8), 2 * 256);
        assert_eq!(word(1, 1 << 63), 0);
        assert_eq!(word(1 << 63, 1), 2 * 2);
        assert_eq!(word(1 << 63 | 6, 1 | 8), 3 * 256 + 2 * 2);
    }

    #[test]
    fn a_rule_in_play_is_not_kept_and_names_no_struck_option() {
        let rows = |fitted, left_out| tallies(fitted, left_out).rows();
        assert_eq!(rows(0, 0), [true, true, false]);
        assert_eq!(rows(2, 1 << 63), [true, true, false]);
        assert_eq!(rows(2, 4), [false, true, true]);
        assert_eq!(rows(2, 1), [false, false, false]);
        assert_eq!(rows(1 << 63 | 4, 0), [false, false, true]);
    }

    #[test]
    fn a_rule_may_name_all_options() {
        let all = Rule { fitted: u64::MAX, left_out: 0 };
        let none = Decisions::default();
        assert_eq!(Options::at(none, 0).tallies(&entries(all)).word(), 64 * 256);
        let fitted = Decisions { decided: u64::MAX, fitted: u64::MAX };
        assert_eq!(Options::at(fitted, 0).tallies(&entries(all)).word(), 64 * 2);
    }
}
