//! A book and an order here, the same as another office writes them, there, and what holds of the two and of what a
//! checker says of them.

use super::made::Renumbered;
use super::readings::Reading;
use crate::choices::{keeps_all, meets_order, MOST_OPTIONS};
use crate::question::Check;
use crate::under_test::UnderTest;
use optbook::{option, Book, Order, OPTIONS};
use std::mem::replace;

/// What holds of a book and an order and their image, and of the two outcomes.
#[derive(Clone, Copy, Debug, PartialEq, Eq, PartialOrd, Ord)]
pub enum Sentence {
    Accepted,
    Verdicts,
    Unchanged,
    Handed,
    Back,
    Choices,
    Apart,
}

impl Sentence {
    pub fn words(self) -> &'static str {
        match self {
            Sentence::Accepted => "neither check is refused",
            Sentence::Verdicts => "where both checks give a verdict, the two agree",
            Sentence::Unchanged => {
                "where nothing is renumbered or reversed, both outcomes are the same with the same \
                 limits"
            }
            Sentence::Handed => {
                "the order that is handed over there completes to the image of the completed order"
            }
            Sentence::Back => "the way back gives the book and the completed order again",
            Sentence::Choices => {
                "a choice keeps book and completed order exactly if its image keeps theirs"
            }
            Sentence::Apart => "no two choices have one image, and each image is a choice",
        }
    }
}

/// A question with its image by a reading: the book and the order there, as it is handed over, and the two checks.
pub struct Sides<'a> {
    pub asked: &'a Renumbered,
    reading: Reading,
    pub book: Book,
    pub order: Order,
    pub checks: [Check; 2],
}

impl Sides<'_> {
    pub fn new(asked: &Renumbered, reading: Reading) -> Sides<'_> {
        let renumbering = &asked.renumbering;
        let book = reading.book(renumbering, &asked.book);
        let order = match asked.with_standard {
            true => (reading.with_standard)(renumbering, asked.order),
            false => (reading.order)(renumbering, asked.order),
        };
        let [here, there] = asked.limits;
        let checks = [here.check(asked.order, &asked.book), there.check(order, &book)];
        Sides { asked, reading, book, order, checks }
    }

    /// What the checker says here and there.
    pub fn printed(&self, tested: &mut dyn UnderTest) -> Result<[String; 2], String> {
        let [here, there] = self.checks.each_ref().map(|check| check.clone().into());
        Ok([tested.printed(&here)?, tested.printed(&there)?])
    }

    /// The sentences that are broken where this is said here and there.
    pub fn broken(&self, printed: &[String; 2]) -> Vec<Sentence> {
        let [choices, apart] = self.of_choices();
        let sentences = [
            (Sentence::Accepted, printed.iter().all(|printed| is_accepted(printed))),
            (Sentence::Verdicts, agree(printed)),
            (Sentence::Unchanged, !self.is_the_same() || printed[0] == printed[1]),
            (Sentence::Handed, self.is_handed_over()),
            (Sentence::Back, self.comes_back()),
            (Sentence::Choices, choices),
            (Sentence::Apart, apart),
        ];
        sentences.into_iter().filter(|(_, holds)| !holds).map(|(sentence, _)| sentence).collect()
    }

    /// Nothing is renumbered or reversed, and both checks have the same limits.
    pub fn is_the_same(&self) -> bool {
        let [here, there] = self.asked.limits;
        self.asked.renumbering.changes_nothing() && here == there
    }

    fn is_handed_over(&self) -> bool {
        let due = (self.reading.order)(&self.asked.renumbering, self.asked.order);
        self.order.completed() == due
    }

    fn comes_back(&self) -> bool {
        let back = (self.reading.back)(&self.asked.renumbering);
        self.reading.book(&back, &self.book) == self.asked.book
            && (self.reading.order)(&back, self.order) == self.asked.order.completed()
    }

    /// All choices are tried.
    pub fn is_small(&self) -> bool {
        self.asked.book.options <= MOST_OPTIONS
    }

    /// The sentences on choices hold. Of a larger book nothing is said.
    fn of_choices(&self) -> [bool; 2] {
        if !self.is_small() {
            return [true, true];
        }
        let Sides { asked, book, order, .. } = self;
        let mut is_image = vec![false; 1 << asked.book.options];
        let (mut are_kept_alike, mut are_apart) = (true, true);
        for choice in 0..1 << asked.book.options {
            let image = (self.reading.choice)(&asked.renumbering, choice);
            are_kept_alike &= keeps(&asked.book, asked.order, choice) == keeps(book, *order, image);
            are_apart &= match is_image.get_mut(image as usize) {
                Some(is_image) => !replace(is_image, true),
                None => false,
            };
        }
        [are_kept_alike, are_apart]
    }

    /// Both questions in words.
    pub fn told(&self) -> String {
        let renumbering = &self.asked.renumbering;
        let numbers: Vec<String> = renumbering.numbers().iter().map(u32::to_string).collect();
        let reversed = (0..OPTIONS).filter(|&index| renumbering.reversed() & option(index) != 0);
        let reversed: Vec<String> = reversed.map(|index| (index + 1).to_string()).collect();
        let list = |words: Vec<String>| match words.is_empty() {
            true => "none".to_string(),
            false => words.join(" "),
        };
        let [here, there] = self.checks.each_ref().map(Check::told);
        format!(
            "new numbers of the options: {}\nreversed, by the old numbers: {}\n\
             here: {here}\nthere: {there}",
            list(numbers),
            list(reversed)
        )
    }
}

/// The choice keeps all rules and the completed order.
fn keeps(book: &Book, order: Order, choice: u64) -> bool {
    meets_order(order.completed(), choice) && keeps_all(book, choice)
}

/// What is said first: a verdict, a stop or a refusal.
fn ending(printed: &str) -> &str {
    printed.split(' ').next().unwrap_or_default()
}

fn is_accepted(printed: &str) -> bool {
    ["can", "cannot", "stopped"].contains(&ending(printed))
}

/// Both verdicts are the same, or there are no two.
fn agree(printed: &[String; 2]) -> bool {
    let endings = printed.each_ref().map(|printed| ending(printed));
    !endings.contains(&"can") || !endings.contains(&"cannot")
}

#[cfg(test)]
mod tests {
    use super::super::made::{Limits, OF_PROGRAM};
    use super::super::readings::RIGHT;
    use super::*;
    use optbook::Rule;
    use port::Renumbering;

    /// Three options, the rules "1 or not 2" and "2 or not 3", 3 is wanted, and 1 is standard.
    fn asked(numbers: &[u32], reversed: u64, with_standard: bool) -> Renumbered {
        let rules = [(1, 2), (2, 4)].map(|(fitted, left_out)| Rule { fitted, left_out }).to_vec();
        let book = Book { options: 3, rules };
        let order = Order { wanted: 4, unwanted: 0, standard: 1 };
        let renumbering = Renumbering::new(numbers.to_vec(), reversed).unwrap();
        Renumbered { book, order, renumbering, with_standard, limits: [OF_PROGRAM; 2] }
    }

    fn said(here: &str, there: &str) -> [String; 2] {
        [here, there].map(str::to_string)
    }

    #[test]
    fn the_image_is_handed_over_as_two_words_or_with_a_standard_one() {
        let of = |reversed, with_standard| {
            let asked = asked(&[3, 1, 2], reversed, with_standard);
            let sides = Sides::new(&asked, RIGHT);
            let (order, book) = sides.checks[1].parts().unwrap();
            assert_eq!((order, book.len()), (sides.order, 35));
            assert_eq!(sides.broken(&said("can 0 0 0 0\n", "can 0 1 0 0\n")), []);
            order.words()
        };
        assert_eq!([of(0, false), of(0, true)], [[6, 0, 0], [2, 0, 4]]);
        assert_eq!([of(1, false), of(1, true)], [[2, 4, 0], [2, 4, 0]]);
    }

    #[test]
    fn what_is_said_is_held_to_the_sentences() {
        let (same, moved) = (asked(&[1, 2, 3], 0, true), asked(&[2, 1, 3], 0, true));
        let broken = |asked: &Renumbered, here: &str, there: &str| {
            Sides::new(asked, RIGHT).broken(&said(here, there))
        };
        let (accepted, verdicts, unchanged) =
            (Sentence::Accepted, Sentence::Verdicts, Sentence::Unchanged);
        assert_eq!(broken(&moved, "can 0 1 2 3\n", "can 0 4 5 6\n"), []);
        assert_eq!(broken(&moved, "can 0 1 2 3\n", "cannot 0 1 2 3\n"), [verdicts]);
        assert_eq!(broken(&moved, "cannot 0 1 2 3\n", "can 0 1 2 3\n"), [verdicts]);
        assert_eq!(broken(&moved, "stopped 10 1 2 3\n", "can 0 1 2 3\n"), []);
        assert_eq!(broken(&moved, "refused 5 0 0 0\n", "can 0 1 2 3\n"), [accepted]);
        assert_eq!(broken(&moved, "cannot 0 1 2 3\n", ""), [accepted]);
        assert_eq!(broken(&same, "can 0 1 2 3\n", "can 0 1 2 3\n"), []);
        assert_eq!(broken(&same, "can 0 1 2 3\n", "can 0 1 2 4\n"), [unchanged]);
        let other_limits = Limits { allowance: 1, ..OF_PROGRAM };
        let same = Renumbered { limits: [OF_PROGRAM, other_limits], ..same };
        assert_eq!(broken(&same, "can 0 1 2 3\n", "can 0 1 2 4\n"), []);
    }

    #[test]
    fn both_questions_are_told() {
        let asked = asked(&[3, 1, 2], 5, false);
        let told = Sides::new(&asked, RIGHT).told();
        let due = "new numbers of the options: 3 1 2\nreversed, by the old numbers: 1 3\n\
                   here: allowance 1000000, derived tables [2048, 2048], record tables [64, 64, 64]\n";
        assert!(told.starts_with(due), "{told}");
        assert!(told.contains("\nthere: allowance 1000000, "), "{told}");
    }
}
