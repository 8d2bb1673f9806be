//! What may come up where a book and an order are renumbered, each by a name.

use super::meaning::Sides;
use optbook::{free, Order, OPTIONS};
use port::{Ending, Outcome, Rule, CAN, CANNOT};

/// A question with its image, and the outcomes of the two.
pub struct Run<'a> {
    pub sides: &'a Sides<'a>,
    pub outcomes: &'a [Outcome; 2],
}

/// What a checker must take for a sort to come up.
#[derive(Clone, Copy, Debug, PartialEq, Eq)]
pub enum Needs {
    Nothing,
    AnyLimits,
}

/// A name, what a checker must take, and whether it comes up.
pub type Sort = (&'static str, Needs, fn(&Run) -> bool);

/// How the two checks end. Of each question it is one of these.
pub const ENDINGS: [Sort; 5] = [
    ("both can", Needs::Nothing, |run| run.endings() == [CAN; 2]),
    ("both cannot", Needs::Nothing, |run| run.endings() == [CANNOT; 2]),
    ("a verdict here and a stop there", Needs::AnyLimits, |run| {
        run.have_verdict() == [true, false]
    }),
    ("a stop here and a verdict there", Needs::AnyLimits, |run| {
        run.have_verdict() == [false, true]
    }),
    ("both stop", Needs::AnyLimits, |run| run.have_verdict() == [false, false]),
];

/// All others, in the order in which they are told.
pub const SORTS: [Sort; 29] = [
    ("a stop at the allowance beside a verdict", Needs::AnyLimits, |run| run.stops_beside(10)),
    ("a stop at the places beside a verdict", Needs::AnyLimits, |run| run.stops_beside(11)),
    ("other branchings", Needs::Nothing, |run| run.is_renumbered() && run.has_other_branchings()),
    ("more or fewer derived rules", Needs::Nothing, |run| {
        run.is_renumbered() && !run.has_as_many_derived()
    }),
    ("as many derived rules, not the images", Needs::Nothing, |run| {
        run.is_renumbered() && run.has_as_many_derived() && !run.has_derived_images()
    }),
    ("nothing differs", Needs::Nothing, |run| run.is_renumbered() && run.has_image_outcome()),
    ("derived rules, and nothing differs", Needs::Nothing, |run| {
        run.is_renumbered() && run.has_image_outcome() && !run.outcomes[0].derived.is_empty()
    }),
    ("nothing changed", Needs::Nothing, |run| run.options() > 1 && run.sides.is_the_same()),
    ("new numbers alone", Needs::Nothing, |run| run.changes() == [true, false]),
    ("reversed names alone", Needs::Nothing, |run| run.changes() == [false, true]),
    ("both", Needs::Nothing, |run| run.changes() == [true, true]),
    (
        "two neighbours changed",
        Needs::Nothing,
        |run| matches!(run.moved()[..], [one, other] if one + 1 == other),
    ),
    ("turned round", Needs::Nothing, |run| run.options() > 2 && run.is_turned_round()),
    ("one reversed", Needs::Nothing, |run| run.reversed().count_ones() == 1),
    ("all reversed", Needs::Nothing, |run| {
        run.options() > 1 && run.reversed() == optbook::first(run.options())
    }),
    ("a wanted option reversed", Needs::Nothing, |run| run.is_reversed(run.order().wanted)),
    ("an unwanted one", Needs::Nothing, |run| run.is_reversed(run.order().unwanted)),
    ("a standard one", Needs::Nothing, |run| run.is_reversed(run.standard_alone())),
    ("a wanted standard one", Needs::Nothing, |run| {
        run.is_reversed(run.order().standard & run.order().wanted)
    }),
    ("an unwanted standard one", Needs::Nothing, |run| {
        run.is_reversed(run.order().standard & run.order().unwanted)
    }),
    ("a free one", Needs::Nothing, |run| run.is_reversed(free(run.order(), run.options()))),
    ("no option", Needs::Nothing, |run| run.options() == 0),
    ("1 option", Needs::Nothing, |run| run.options() == 1),
    ("2 options", Needs::Nothing, |run| run.options() == 2),
    ("64 options", Needs::Nothing, |run| run.options() == OPTIONS),
    ("option 64 renumbered", Needs::Nothing, |run| run.moved().contains(&OPTIONS)),
    ("option 64 reversed", Needs::Nothing, |run| run.is_reversed(1 << 63)),
    ("standard options handed over as two words", Needs::Nothing, |run| {
        run.is_renumbered() && run.has_standard() && !run.sides.asked.with_standard
    }),
    ("with a standard word", Needs::Nothing, |run| {
        run.is_renumbered() && run.sides.order.standard != 0
    }),
];

impl Run<'_> {
    fn endings(&self) -> [Ending; 2] {
        self.outcomes.each_ref().map(|outcome| outcome.ending)
    }

    fn have_verdict(&self) -> [bool; 2] {
        self.endings().map(|ending| matches!(ending, Ending::Verdict(_)))
    }

    /// One check stops with this number, and the other gives a verdict.
    fn stops_beside(&self, number: u32) -> bool {
        self.endings().contains(&Ending::Stopped(number)) && self.have_verdict().contains(&true)
    }

    /// Something is renumbered or reversed, and both checks give a verdict.
    fn is_renumbered(&self) -> bool {
        !self.sides.asked.renumbering.changes_nothing() && self.have_verdict() == [true, true]
    }

    fn has_other_branchings(&self) -> bool {
        self.outcomes[0].branchings != self.outcomes[1].branchings
    }

    fn has_as_many_derived(&self) -> bool {
        self.outcomes[0].derived.len() == self.outcomes[1].derived.len()
    }

    /// The derived rules there are the images of those here, in their sequence.
    fn has_derived_images(&self) -> bool {
        let image = |rule: &Rule| self.sides.asked.renumbering.rule(*rule);
        self.outcomes[0].derived.iter().map(image).eq(self.outcomes[1].derived.iter().copied())
    }

    /// The counts are the same, and the derived rules the images.
    fn has_image_outcome(&self) -> bool {
        !self.has_other_branchings()
            && self.has_derived_images()
            && self.outcomes[0].records.len() == self.outcomes[1].records.len()
    }

    fn options(&self) -> usize {
        self.sides.asked.book.options
    }

    fn order(&self) -> Order {
        self.sides.asked.order
    }

    fn reversed(&self) -> u64 {
        self.sides.asked.renumbering.reversed()
    }

    /// One of these options is reversed.
    fn is_reversed(&self, options: u64) -> bool {
        self.reversed() & options != 0
    }

    /// The options that are wanted for being standard alone.
    fn standard_alone(&self) -> u64 {
        self.order().standard & !(self.order().wanted | self.order().unwanted)
    }

    /// A standard option is not unwanted.
    fn has_standard(&self) -> bool {
        self.order().standard & !self.order().unwanted != 0
    }

    /// The options that get another number, by their old ones.
    fn moved(&self) -> Vec<usize> {
        let numbers = self.sides.asked.renumbering.numbers().iter();
        let moved = (1..).zip(numbers).filter(|(old, new)| *old != **new as usize);
        moved.map(|(old, _)| old).collect()
    }

    /// Options get other numbers, and options are reversed.
    fn changes(&self) -> [bool; 2] {
        [!self.moved().is_empty(), self.reversed() != 0]
    }

    fn is_turned_round(&self) -> bool {
        let numbers = self.sides.asked.renumbering.numbers();
        numbers.windows(2).all(|two| two[0] == two[1] + 1)
    }
}

#[cfg(test)]
mod tests {
    use super::super::made::{Limits, Renumbered, OF_PROGRAM};
    use super::super::readings::RIGHT;
    use super::*;
    use crate::question::Check;
    use optbook::Book;
    use port::Renumbering;

    /// A book of so many options with these rules and no wishes, with these new numbers and reversed options.
    fn asked(options: usize, rules: &[(u64, u64)], numbers: &[u32], reversed: u64) -> Renumbered {
        let rules =
            rules.iter().map(|&(fitted, left_out)| optbook::Rule { fitted, left_out }).collect();
        let renumbering = Renumbering::new(numbers.to_vec(), reversed).unwrap();
        let (order, limits) = (Order::default(), [OF_PROGRAM; 2]);
        Renumbered {
            book: Book { options, rules },
            order,
            renumbering,
            with_standard: false,
            limits,
        }
    }

    fn names(asked: &Renumbered) -> Vec<&'static str> {
        let sides = Sides::new(asked, RIGHT);
        let outcomes = sides.checks.each_ref().map(Check::port_outcome);
        let run = Run { sides: &sides, outcomes: &outcomes };
        let sorts = ENDINGS.iter().chain(&SORTS).filter(|(_, _, is_such)| is_such(&run));
        sorts.map(|(name, _, _)| *name).collect()
    }

    /// The names after the ending and "nothing differs".
    fn of_change(asked: &Renumbered) -> Vec<&'static str> {
        let names = names(asked);
        assert_eq!(names[..2], ["both can", "nothing differs"]);
        names[2..].to_vec()
    }

    #[test]
    fn questions_are_sorted_by_what_is_changed() {
        let same = asked(3, &[], &[1, 2, 3], 0);
        assert_eq!(names(&same), ["both can", "nothing changed"]);
        let of = |numbers: &[u32], reversed| of_change(&asked(4, &[], numbers, reversed));
        assert_eq!(of(&[1, 3, 2, 4], 0), ["new numbers alone", "two neighbours changed"]);
        assert_eq!(of(&[3, 2, 1, 4], 0), ["new numbers alone"]);
        assert_eq!(of(&[4, 3, 2, 1], 0), ["new numbers alone", "turned round"]);
        let one = ["reversed names alone", "one reversed", "a free one"];
        assert_eq!(of(&[1, 2, 3, 4], 4), one);
        assert_eq!(of(&[2, 4, 3, 1], 12), ["both", "a free one"]);
        assert_eq!(of(&[2, 4, 3, 1], 15), ["both", "all reversed", "a free one"]);
    }

    #[test]
    fn questions_are_sorted_by_the_number_of_options() {
        assert_eq!(names(&asked(0, &[], &[], 0)), ["both can", "no option"]);
        assert_eq!(names(&asked(1, &[], &[1], 0)), ["both can", "1 option"]);
        let two = ["new numbers alone", "two neighbours changed", "2 options"];
        assert_eq!(of_change(&asked(2, &[], &[2, 1], 0)), two);
        let turned: Vec<u32> = (1..=64).rev().collect();
        let full = ["both", "turned round", "one reversed", "a free one", "64 options"];
        assert_eq!(of_change(&asked(64, &[], &turned, 1))[..5], full);
        let last = ["option 64 renumbered", "option 64 reversed"];
        assert_eq!(of_change(&asked(64, &[], &turned, 1 << 63))[5..], last);
    }

    #[test]
    fn questions_are_sorted_by_the_order() {
        let of = |wanted, unwanted, standard, with_standard| {
            let order = Order { wanted, unwanted, standard };
            let asked = Renumbered { order, with_standard, ..asked(3, &[], &[1, 3, 2], 1) };
            of_change(&asked)[3..].to_vec()
        };
        assert_eq!(of(1, 0, 0, false), ["a wanted option reversed"]);
        assert_eq!(of(0, 1, 0, true), ["an unwanted one"]);
        assert_eq!(of(0, 1, 1, false), ["an unwanted one", "an unwanted standard one"]);
        let two_words = "standard options handed over as two words";
        assert_eq!(of(0, 0, 1, false), ["a standard one", two_words]);
        assert_eq!(of(0, 0, 1, true), ["a standard one"]);
        let wanted = ["a wanted option reversed", "a wanted standard one"];
        assert_eq!(of(1, 0, 1, true), wanted);
        assert_eq!(of(0, 0, 2, true), ["a free one", "with a standard word"]);
    }

    /// Of all rules on two options the derived ones are "1", "not 1" and the empty one, whichever option is called 1.
    /// Of the rules "1", "not 1", "2" and "not 2" it is the empty one alone. Without the rule "2 or not 1" option 1 is
    /// tried in vain first, and as option 2 it follows.
    #[test]
    fn questions_are_sorted_by_the_derived_rules() {
        let swapped = ["new numbers alone", "two neighbours changed", "2 options"];
        let of = |rules: &[(u64, u64)]| {
            let mut names = names(&asked(2, rules, &[2, 1], 0));
            assert_eq!(names.split_off(names.len() - 3), swapped);
            names
        };
        let others = "as many derived rules, not the images";
        assert_eq!(of(&[(3, 0), (2, 1), (1, 2), (0, 3)]), ["both cannot", others]);
        let due = ["both can", "other branchings", "more or fewer derived rules"];
        assert_eq!(of(&[(3, 0), (1, 2), (0, 3)]), due);
        let images = "derived rules, and nothing differs";
        let due = ["both cannot", "nothing differs", images];
        assert_eq!(of(&[(1, 0), (0, 1), (2, 0), (0, 2)]), due);
    }

    #[test]
    fn questions_are_sorted_by_their_stops() {
        let of = |here: Limits, there: Limits| {
            let rules = [(3, 0), (2, 1), (1, 2), (0, 3)];
            let mut asked = asked(2, &rules, &[2, 1], 0);
            asked.limits = [here, there];
            let names = names(&asked);
            let other = |name: &&str| !name.starts_with("new") && !name.starts_with("two");
            names.into_iter().filter(other).collect::<Vec<_>>()
        };
        let spent = Limits { allowance: 2, ..OF_PROGRAM };
        let filled = Limits { derived: 2, ..OF_PROGRAM };
        let there = "a verdict here and a stop there";
        let at_allowance = "a stop at the allowance beside a verdict";
        assert_eq!(of(OF_PROGRAM, spent), [there, at_allowance, "2 options"]);
        let here = "a stop here and a verdict there";
        let at_places = "a stop at the places beside a verdict";
        assert_eq!(of(filled, OF_PROGRAM), [here, at_places, "2 options"]);
        assert_eq!(of(filled, spent), ["both stop", "2 options"]);
    }
}
