//! The worst books: all rules that name every option. A check takes as many branchings, and derives as many
//! rules, as any book of so many options may.

use crate::{first, Book, Rule, RULES};

/// The most options of a worst book: one more would double its rules beyond what a book may have.
pub const MOST_OPTIONS: usize = RULES.ilog2() as usize;

/// All rules that name every one of these options: nothing keeps them all, but without any one of
/// them there is a choice.
pub fn all_rules(options: usize) -> Book {
    let all = first(options);
    let rules = (0..1 << options).map(|fitted| Rule { fitted, left_out: all & !fitted });
    Book { options, rules: rules.collect() }
}

/// The branchings of a check of these rules in any sequence with an empty order, and its derived rules.
pub fn needs(options: usize) -> usize {
    (1 << options) - 1
}

#[cfg(test)]
mod tests {
    use super::*;

    #[test]
    fn all_rules_are_all_different() {
        let rules = all_rules(4).rules;
        assert_eq!(rules.len(), 16);
        assert!((0..16).all(|i| (0..i).all(|j| rules[i] != rules[j])));
        assert!(rules.iter().all(|r| r.fitted | r.left_out == 15 && r.fitted & r.left_out == 0));
    }

    #[test]
    fn ten_options_have_as_many_rules_as_a_book_may() {
        assert_eq!(MOST_OPTIONS, 10);
        assert_eq!(all_rules(MOST_OPTIONS).rules.len(), RULES);
    }

    #[test]
    fn each_option_more_takes_twice_as_many_and_one() {
        assert_eq!(needs(1), 1);
        assert!((1..MOST_OPTIONS).all(|options| needs(options + 1) == 2 * needs(options) + 1));
        assert_eq!(needs(MOST_OPTIONS), 1023);
    }
}
