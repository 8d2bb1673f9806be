//! What may come up on a page, each by a name.

use super::read_back::{characters, entries, TEXT};
use crate::question::Page;
use port::{Ending, Outcome, Rule};

/// A page, and the outcome that it has.
pub struct Run<'a> {
    pub page: &'a Page,
    pub outcome: &'a Outcome,
}

/// What a checker must take for a sort to come up.
#[derive(Clone, Copy, Debug, PartialEq, Eq)]
pub enum Needs {
    Nothing,
    AnyAllowance,
    ShortOrders,
}

/// A name, what a checker must take, and whether it comes up on a page.
pub type Sort = (&'static str, Needs, fn(&Run) -> bool);

/// All of them, in the order in which they are told.
#[rustfmt::skip]
pub const SORTS: [Sort; 25] = [
    ("no rule", Needs::Nothing, |run| run.has_verdict() && run.rules() == 0),
    ("10 to 99 rules", Needs::Nothing, |run| (10..100).contains(&run.rules())),
    ("100 to 999 rules", Needs::Nothing, |run| (100..1000).contains(&run.rules())),
    ("1,000 rules or more", Needs::Nothing, |run| run.rules() >= 1000),
    ("the longest page", Needs::Nothing, |run| run.rules() == 2048),
    ("10 to 99 branchings", Needs::Nothing, |run| (10..100).contains(&run.outcome.branchings)),
    ("100 to 999 branchings", Needs::Nothing, |run| (100..1000).contains(&run.outcome.branchings)),
    ("1,000 branchings or more", Needs::Nothing, |run| run.outcome.branchings >= 1000),
    ("the empty rule", Needs::Nothing, |run| run.any(|rule| entries(rule) == 0)),
    ("one entry", Needs::Nothing, |run| run.any(|rule| entries(rule) == 1)),
    ("fitted entries alone", Needs::Nothing, |run| run.any_shown(|rule| rule.left_out == 0)),
    ("left-out entries alone", Needs::Nothing, |run| run.any_shown(|rule| rule.fitted == 0)),
    ("fitted after left out", Needs::Nothing, |run| {
        run.any_shown(|rule| rule.left_out != 0 && rule.fitted > rule.left_out)
    }),
    ("left out after fitted", Needs::Nothing, |run| {
        run.any_shown(|rule| rule.fitted != 0 && rule.left_out > rule.fitted)
    }),
    ("option 64 fitted", Needs::Nothing, |run| run.any_shown(|rule| rule.fitted >> 63 == 1)),
    ("option 64 left out", Needs::Nothing, |run| run.any_shown(|rule| rule.left_out >> 63 == 1)),
    ("35 characters", Needs::Nothing, |run| run.any(|rule| characters(rule) == TEXT)),
    ("36 characters", Needs::Nothing, |run| run.any(|rule| characters(rule) == TEXT + 1)),
    ("more characters", Needs::Nothing, |run| run.any(|rule| characters(rule) > TEXT + 1)),
    ("15 entries shown", Needs::Nothing, |run| run.any_shown(|rule| entries(rule) == 15)),
    ("10 entries counted", Needs::Nothing, |run| run.any_counted(|rule| entries(rule) == 10)),
    ("63 entries counted", Needs::Nothing, |run| run.any_counted(|rule| entries(rule) == 63)),
    ("a stop before a rule", Needs::AnyAllowance, |run| run.is_spent() && run.rules() == 0),
    ("a stop after a rule", Needs::AnyAllowance, |run| run.is_spent() && run.rules() > 0),
    ("a short order", Needs::ShortOrders, |run| run.page.parts().is_none()),
];

impl Run<'_> {
    fn rules(&self) -> usize {
        self.outcome.derived.len()
    }

    fn has_verdict(&self) -> bool {
        matches!(self.outcome.ending, Ending::Verdict(_))
    }

    /// It stopped where the allowance was spent.
    fn is_spent(&self) -> bool {
        self.outcome.ending == Ending::Stopped(10)
    }

    /// Some derived rule is such.
    fn any(&self, is_such: impl Fn(Rule) -> bool) -> bool {
        self.outcome.derived.iter().any(|&rule| is_such(rule))
    }

    /// Some derived rule that is shown by its entries is such.
    fn any_shown(&self, is_such: impl Fn(Rule) -> bool) -> bool {
        self.any(|rule| entries(rule) > 0 && characters(rule) <= TEXT && is_such(rule))
    }

    /// Some derived rule that is shown by their number is such.
    fn any_counted(&self, is_such: impl Fn(Rule) -> bool) -> bool {
        self.any(|rule| characters(rule) > TEXT && is_such(rule))
    }
}

#[cfg(test)]
mod tests {
    use super::*;
    use port::{CAN, CANNOT};

    /// The names of what comes up where it ends so, after so many branchings, with these derived rules.
    fn names(ending: Ending, branchings: u32, rules: &[(u64, u64)]) -> Vec<&'static str> {
        let rules = rules.iter().map(|&(fitted, left_out)| Rule { fitted, left_out });
        let (derived, records) = (rules.collect(), Vec::new());
        let outcome = Outcome { ending, branchings, derived, records };
        let page = Page::of_program(vec![0; 24]);
        let run = Run { page: &page, outcome: &outcome };
        SORTS.iter().filter(|(_, _, is_such)| is_such(&run)).map(|(name, _, _)| *name).collect()
    }

    #[test]
    fn rules_are_sorted_by_their_entries() {
        assert_eq!(names(CAN, 0, &[]), ["no rule"]);
        assert_eq!(names(CANNOT, 1, &[(0, 0)]), ["the empty rule"]);
        let one = ["one entry", "fitted entries alone", "option 64 fitted"];
        assert_eq!(names(CAN, 1, &[(1 << 63, 0)]), one);
        let last = ["left-out entries alone", "option 64 left out"];
        assert_eq!(names(CAN, 1, &[(0, 3 << 62)]), last);
        assert_eq!(names(CAN, 1, &[(4, 1)]), ["fitted after left out"]);
        assert_eq!(names(CAN, 1, &[(1, 4)]), ["left out after fitted"]);
    }

    #[test]
    fn rules_are_sorted_by_their_characters() {
        let fits = ["fitted entries alone", "35 characters", "15 entries shown"];
        assert_eq!(names(CAN, 1, &[(32767, 0)]), fits);
        assert_eq!(names(CAN, 1, &[(32766, 1)]), ["36 characters"]);
        let ten = ["more characters", "10 entries counted"];
        assert_eq!(names(CAN, 1, &[(0, 0x3ff << 54)]), ten);
        assert_eq!(names(CAN, 1, &[(!1, 0)]), ["more characters", "63 entries counted"]);
    }

    #[test]
    fn pages_are_sorted_by_their_numbers() {
        let many = |rules: usize, branchings| names(CAN, branchings, &vec![(0, 0); rules]);
        let two = ["10 to 99 rules", "10 to 99 branchings", "the empty rule"];
        assert_eq!([many(10, 99), many(99, 10)], [two; 2]);
        let three = ["100 to 999 rules", "100 to 999 branchings", "the empty rule"];
        assert_eq!([many(100, 999), many(999, 100)], [three; 2]);
        let most = ["1,000 rules or more", "1,000 branchings or more", "the empty rule"];
        assert_eq!([many(1000, 1000), many(2047, 1_000_000)], [most; 2]);
        let longest = ["1,000 rules or more", "the longest page", "the empty rule"];
        assert_eq!(many(2048, 0), longest);
    }

    #[test]
    fn stops_are_sorted_by_what_came_before() {
        let ten = Ending::Stopped(10);
        assert_eq!(names(ten, 3, &[]), ["a stop before a rule"]);
        assert_eq!(names(ten, 3, &[(0, 0)]), ["the empty rule", "a stop after a rule"]);
        assert_eq!(names(Ending::Stopped(11), 3, &[]), Vec::<&str>::new());
    }

    #[test]
    fn a_short_order_is_one_of_fewer_than_24_bytes() {
        let outcome = Outcome::refused(1);
        let is_short = |length: usize| {
            let page = Page::of_program(vec![0; length]);
            let run = Run { page: &page, outcome: &outcome };
            SORTS.iter().any(|(name, _, is_such)| *name == "a short order" && is_such(&run))
        };
        assert_eq!([is_short(0), is_short(23), is_short(24)], [true, true, false]);
    }
}
