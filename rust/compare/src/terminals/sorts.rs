//! What may come up in a list of sites, each by a name.

use crate::question::Sites;
use port::{Ending, Served};

/// A list, and its sites that were served, of which there are none where it is refused.
pub struct Run<'a> {
    pub list: &'a Sites,
    pub served: &'a [Served],
}

/// A name, and whether it comes up in a list.
type Sort = (&'static str, fn(&Run) -> bool);

/// All of them, in the order in which they are told.
pub const SORTS: [Sort; 36] = [
    ("no site", |run| run.count() == 0),
    ("1 site", |run| run.count() == 1),
    ("2 sites", |run| run.count() == 2),
    ("3 sites", |run| run.count() == 3),
    ("4 sites", |run| run.count() == 4),
    ("5 sites", |run| run.count() == 5),
    ("6 sites", |run| run.count() == 6),
    ("7 sites", |run| run.count() == 7),
    ("8 sites", |run| run.count() == 8),
    ("9 sites", |run| run.count() == 9),
    ("more sites", |run| run.count() > 9),
    ("nothing to share", |run| run.is_served() && run.whole() == 0),
    ("fewer branchings than sites", |run| run.whole() > 0 && run.part() == Some(0)),
    ("a remainder", |run| run.part().is_some_and(|part| part > 0 && run.remainder() > 0)),
    ("no remainder", |run| run.part().is_some_and(|part| part > 0 && run.remainder() == 0)),
    ("nearly 2^32 branchings", |run| run.is_served() && run.whole() > u32::MAX - 100),
    ("a remainder used", |run| run.is_served() && run.uses_more(0)),
    ("a rest used", |run| run.any(|i| i > 0 && run.uses_more(i))),
    ("a refused site's rest used", |run| {
        run.any(|i| i > 0 && run.is_refused(i - 1) && run.uses_more(i))
    }),
    ("nothing used before others", |run| {
        run.any(|i| run.has_verdict(i) && run.used(i) == 0 && i + 1 < run.count())
    }),
    ("all used", |run| run.is_served() && run.whole() > 0 && run.used_in_all() == run.whole()),
    ("stopped with its part alone", |run| {
        run.any(|i| run.is_spent(i) && run.used(i) > 0 && !run.uses_more(i))
    }),
    ("stopped with a rest", |run| run.any(|i| i > 0 && run.is_spent(i) && run.uses_more(i))),
    ("all others stopped", |run| {
        let other_than = |i: usize| move |j: &usize| *j != i;
        let stop = |i: usize| (0..run.served.len()).filter(other_than(i)).all(|j| run.is_spent(j));
        run.count() > 1 && run.any(|i| run.has_verdict(i) && run.used(i) > 0 && stop(i))
    }),
    ("refused 7 before others", |run| run.before(Ending::Refused(7))),
    ("refused 7 after others", |run| run.after(Ending::Refused(7))),
    ("refused 8 before others", |run| run.before(Ending::Refused(8))),
    ("refused 8 after others", |run| run.after(Ending::Refused(8))),
    ("refused 9 before others", |run| run.before(Ending::Refused(9))),
    ("refused 9 after others", |run| run.after(Ending::Refused(9))),
    ("refused 12 before others", |run| run.before(Ending::Refused(12))),
    ("refused 12 after others", |run| run.after(Ending::Refused(12))),
    ("stopped 10 before others", |run| run.before(Ending::Stopped(10))),
    ("stopped 10 after others", |run| run.after(Ending::Stopped(10))),
    ("stopped 11 before others", |run| run.before(Ending::Stopped(11))),
    ("stopped 11 after others", |run| run.after(Ending::Stopped(11))),
];

impl Run<'_> {
    fn count(&self) -> usize {
        self.list.sites.len()
    }

    fn is_served(&self) -> bool {
        !self.served.is_empty()
    }

    fn whole(&self) -> u32 {
        self.list.allowance
    }

    /// A site's part, where the list is served.
    fn part(&self) -> Option<u32> {
        self.whole().checked_div(self.served.len() as u32)
    }

    fn remainder(&self) -> u32 {
        self.whole() % self.served.len() as u32
    }

    /// Some site that was served, by its index, is such.
    fn any(&self, is_such: impl Fn(usize) -> bool) -> bool {
        (0..self.served.len()).any(is_such)
    }

    fn ending(&self, index: usize) -> Ending {
        self.served[index].outcome.ending
    }

    fn has_verdict(&self, index: usize) -> bool {
        matches!(self.ending(index), Ending::Verdict(_))
    }

    fn is_refused(&self, index: usize) -> bool {
        matches!(self.ending(index), Ending::Refused(_))
    }

    /// The site stopped where its allowance was spent.
    fn is_spent(&self, index: usize) -> bool {
        self.ending(index) == Ending::Stopped(10)
    }

    fn used(&self, index: usize) -> u32 {
        self.served[index].outcome.branchings
    }

    fn used_in_all(&self) -> u32 {
        self.served.iter().map(|served| served.outcome.branchings).sum()
    }

    /// The site uses more than its part.
    fn uses_more(&self, index: usize) -> bool {
        self.part().is_some_and(|part| self.used(index) > part)
    }

    /// A site with this ending comes before one with a verdict.
    fn before(&self, ending: Ending) -> bool {
        self.any(|i| self.ending(i) == ending && self.any(|j| j > i && self.has_verdict(j)))
    }

    /// A site with this ending comes after one with a verdict.
    fn after(&self, ending: Ending) -> bool {
        self.any(|i| self.ending(i) == ending && self.any(|j| j < i && self.has_verdict(j)))
    }
}

#[cfg(test)]
mod tests {
    use super::*;
    use crate::question::Site;
    use port::{Outcome, Places, CAN};

    /// The names of what comes up in a list with this allowance whose sites end so, after so many
    /// branchings; but for those that tell the number of sites, which stand first.
    fn names(whole: u32, ends: &[(Ending, u32)]) -> Vec<&'static str> {
        let site = Site { order: Default::default(), places: Places::equal(0, 64) };
        let list = Sites { book: Vec::new(), sites: vec![site; ends.len()], allowance: whole };
        let served: Vec<Served> = ends
            .iter()
            .map(|&(ending, branchings)| {
                let outcome = Outcome { ending, branchings, ..Outcome::refused(0) };
                Served { allowance: 0, outcome }
            })
            .collect();
        let run = Run { list: &list, served: &served };
        let sorts = SORTS[11..].iter().filter(|(_, is_such)| is_such(&run));
        sorts.map(|(name, _)| *name).collect()
    }

    const TEN: Ending = Ending::Stopped(10);
    const SEVEN: Ending = Ending::Refused(7);

    #[test]
    fn what_is_used_beyond_the_part_is_a_remainder_or_a_rest() {
        assert_eq!(
            names(7, &[(CAN, 4), (CAN, 3)]),
            ["a remainder", "a remainder used", "all used"]
        );
        let due = ["no remainder", "a rest used", "nothing used before others"];
        assert_eq!(names(6, &[(CAN, 0), (CAN, 4)]), due);
        let due = ["no remainder", "a rest used", "a refused site's rest used", "all used"];
        let due = [&due[..], &["refused 7 before others"]].concat();
        assert_eq!(names(6, &[(SEVEN, 0), (CAN, 6)]), due);
        assert_eq!(names(6, &[(CAN, 1), (SEVEN, 0)]), ["no remainder", "refused 7 after others"]);
    }

    #[test]
    fn a_stop_has_the_part_alone_or_a_rest() {
        let due = [
            "no remainder",
            "all used",
            "stopped with its part alone",
            "all others stopped",
            "stopped 10 before others",
        ];
        assert_eq!(names(6, &[(TEN, 3), (CAN, 3)]), due);
        let due = ["no remainder", "a rest used", "stopped with a rest", "stopped 10 after others"];
        assert_eq!(names(6, &[(CAN, 1), (TEN, 4)])[..3], due[..3]);
        assert!(names(6, &[(CAN, 1), (TEN, 4)]).contains(&due[3]));
        assert_eq!(names(2, &[(TEN, 0), (TEN, 0), (TEN, 0)]), ["fewer branchings than sites"]);
        assert_eq!(names(0, &[(TEN, 0), (TEN, 0)]), ["nothing to share"]);
    }

    #[test]
    fn nothing_comes_up_in_a_list_that_is_refused_but_its_number_of_sites() {
        assert_eq!(names(u32::MAX, &[]), Vec::<&str>::new());
        assert_eq!(names(u32::MAX, &[(CAN, 0)])[1..], ["nearly 2^32 branchings"]);
    }
}
