//! Rules, decisions and records, each a few 64-bit words. Option k stands at bit k - 1.

/// A rule: the options that keep it when fitted, and those that keep it when left out.
#[derive(Clone, Copy, Debug, PartialEq, Eq)]
pub struct Rule {
    pub fitted: u64,
    pub left_out: u64,
}

/// The decided options, and those of them that are fitted.
#[derive(Clone, Copy, Debug, Default, PartialEq, Eq)]
pub struct Decisions {
    pub decided: u64,
    pub fitted: u64,
}

/// A record: its decisions, and its joint set K of struck options.
#[derive(Clone, Copy, Debug, Default, PartialEq, Eq)]
pub struct Record {
    pub decisions: Decisions,
    pub struck: u64,
}

/// The lowest option of a set, as a set; none of none.
pub fn lowest(set: u64) -> u64 {
    set & set.wrapping_neg()
}

/// The first n options, n at most 64.
pub fn first(n: u32) -> u64 {
    if n == 64 {
        u64::MAX
    } else {
        (1 << n) - 1
    }
}

impl Rule {
    /// The options that the rule names.
    pub fn options(self) -> u64 {
        self.fitted | self.left_out
    }

    /// The decided options that make an entry of the rule true.
    pub fn true_entries(self, decisions: Decisions) -> u64 {
        (self.fitted & decisions.fitted) | (self.left_out & decisions.decided & !decisions.fitted)
    }

    /// A decided option makes an entry true.
    pub fn is_kept(self, decisions: Decisions) -> bool {
        self.true_entries(decisions) != 0
    }

    /// All options of the rule are decided and all its entries are false.
    pub fn is_broken(self, decisions: Decisions) -> bool {
        self.options() & !decisions.decided == 0 && !self.is_kept(decisions)
    }

    /// All entries of the rule are among the other's.
    pub fn covers(self, other: Rule) -> bool {
        self.fitted & !other.fitted == 0 && self.left_out & !other.left_out == 0
    }

    /// The rule is kept or names a struck option.
    pub fn is_out(self, decisions: Decisions, struck: u64) -> bool {
        self.options() & struck != 0 || self.is_kept(decisions)
    }
}

impl Decisions {
    /// These decisions and one more: the option is fitted or left out.
    pub fn with(self, option: u64, fitted: bool) -> Decisions {
        Decisions {
            decided: self.decided | option,
            fitted: if fitted { self.fitted | option } else { self.fitted },
        }
    }

    /// Those of the decisions that are on the options of a set.
    pub fn on(self, set: u64) -> Decisions {
        Decisions { decided: self.decided & set, fitted: self.fitted & set }
    }

    /// Both together.
    pub fn together(self, other: Decisions) -> Decisions {
        Decisions { decided: self.decided | other.decided, fitted: self.fitted | other.fitted }
    }
}

#[cfg(test)]
mod tests {
    use super::*;

    fn rule(fitted: u64, left_out: u64) -> Rule {
        Rule { fitted, left_out }
    }

    #[test]
    fn the_first_options_reach_the_whole_word() {
        assert_eq!(first(0), 0);
        assert_eq!(first(3), 7);
        assert_eq!(first(64), u64::MAX);
    }

    #[test]
    fn lowest_is_one_option() {
        assert_eq!(lowest(0), 0);
        assert_eq!(lowest(0b1100), 0b100);
        assert_eq!(lowest(1 << 63), 1 << 63);
    }

    #[test]
    fn the_empty_rule_is_broken_and_never_kept() {
        let none = Decisions::default();
        assert!(rule(0, 0).is_broken(none));
        assert!(!rule(0, 0).is_kept(none));
    }

    #[test]
    fn an_undecided_option_keeps_a_rule_from_being_broken() {
        let d = Decisions::default().with(1, false);
        assert!(rule(1, 0).is_broken(d));
        assert!(!rule(3, 0).is_broken(d));
        assert!(rule(0, 1).is_kept(d));
    }

    #[test]
    fn a_rule_covers_what_has_all_its_entries() {
        assert!(rule(1, 4).covers(rule(3, 4)));
        assert!(rule(1, 4).covers(rule(1, 4)));
        assert!(rule(0, 0).covers(rule(0, 0)));
        assert!(!rule(3, 4).covers(rule(1, 4)));
        assert!(!rule(1, 0).covers(rule(0, 1)));
        assert!(!rule(0, 1).covers(rule(1, 2)));
    }

    #[test]
    fn a_struck_option_puts_a_rule_out_and_does_not_break_it() {
        let d = Decisions::default().with(1, false);
        assert!(rule(3, 0).is_out(d, 2));
        assert!(!rule(3, 0).is_broken(d));
        assert!(!rule(3, 0).is_out(d, 4));
    }
}
