//! A book and an order as another office writes them: it numbers the options otherwise, and of some it says
//! "fitted" where "left out" is said here. Option by option.

use crate::book::OPTIONS;
use crate::request::Order;
use crate::words::{first, Rule};

/// The other office's number of option 1, of option 2 and so on, and the options that it reverses, under the
/// numbers here.
#[derive(Clone, Debug, PartialEq, Eq)]
pub struct Renumbering {
    numbers: Vec<u32>,
    reversed: u64,
}

/// An option: its number here, its number there, and whether it is reversed.
struct Named {
    here: u32,
    there: u32,
    is_reversed: bool,
}

impl Renumbering {
    /// None where these are not the numbers of as many options, each once, or where another option is reversed.
    pub fn new(numbers: Vec<u32>, reversed: u64) -> Option<Renumbering> {
        let n = numbers.len() as u32;
        let is_good = numbers.len() <= OPTIONS
            && (1..=n).all(|number| numbers.contains(&number))
            && reversed & !first(n) == 0;
        is_good.then_some(Renumbering { numbers, reversed })
    }

    /// The number of each option there.
    pub fn numbers(&self) -> &[u32] {
        &self.numbers
    }

    /// The reversed options, under the numbers here.
    pub fn reversed(&self) -> u64 {
        self.reversed
    }

    /// Each option has its own number there, and none is reversed.
    pub fn changes_nothing(&self) -> bool {
        self.options().all(|option| option.here == option.there && !option.is_reversed)
    }

    fn options(&self) -> impl Iterator<Item = Named> + '_ {
        let reversed = self.reversed;
        let named = move |(&there, here)| Named { here, there, is_reversed: has(reversed, here) };
        self.numbers.iter().zip(1..).map(named)
    }

    /// These options under their numbers there, whether they are reversed or not.
    pub fn set(&self, options: u64) -> u64 {
        let named = self.options().filter(|option| has(options, option.here));
        named.map(|option| alone(option.there)).sum()
    }

    /// The rule there. A reversed option that keeps it when fitted keeps it there when left out, and the other way
    /// round.
    pub fn rule(&self, rule: Rule) -> Rule {
        let mut image = Rule { fitted: 0, left_out: 0 };
        for Named { here, there, is_reversed } in self.options() {
            let (is_fitted, is_left_out) = match is_reversed {
                false => (has(rule.fitted, here), has(rule.left_out, here)),
                true => (has(rule.left_out, here), has(rule.fitted, here)),
            };
            if is_fitted {
                image.fitted |= alone(there);
            }
            if is_left_out {
                image.left_out |= alone(there);
            }
        }
        image
    }

    /// The completed order there, which has no standard options. A reversed option that is wanted here, or standard
    /// and not unwanted, is unwanted there, and one that is unwanted here is wanted there.
    pub fn order(&self, order: Order) -> Order {
        let mut image = Order::default();
        for Named { here, there, is_reversed } in self.options() {
            let is_unwanted = has(order.unwanted, here);
            let is_wanted = has(order.wanted, here) || has(order.standard, here) && !is_unwanted;
            let (is_wanted, is_unwanted) = match is_reversed {
                false => (is_wanted, is_unwanted),
                true => (is_unwanted, is_wanted),
            };
            if is_wanted {
                image.wanted |= alone(there);
            }
            if is_unwanted {
                image.unwanted |= alone(there);
            }
        }
        image
    }

    /// The choice there: an option is fitted if it is fitted here, or if it is reversed and left out here.
    pub fn choice(&self, choice: u64) -> u64 {
        let is_fitted = |option: &Named| has(choice, option.here) != option.is_reversed;
        self.options().filter(is_fitted).map(|option| alone(option.there)).sum()
    }

    /// The way back: from the numbers there to those here, with the same options reversed.
    pub fn back(&self) -> Renumbering {
        let mut numbers = vec![0; self.numbers.len()];
        for option in self.options() {
            numbers[option.there as usize - 1] = option.here;
        }
        Renumbering { numbers, reversed: self.set(self.reversed) }
    }
}

/// The option with this number is in the set.
fn has(set: u64, number: u32) -> bool {
    set >> (number - 1) & 1 == 1
}

/// The option with this number, as a set.
fn alone(number: u32) -> u64 {
    1 << (number - 1)
}

#[cfg(test)]
mod tests {
    use super::*;

    /// Options 1, 2 and 3 are 3, 1 and 2 there, and option 2 is reversed.
    fn three() -> Renumbering {
        Renumbering::new(vec![3, 1, 2], 0b010).unwrap()
    }

    /// 64 options, the last first, and all reversed.
    fn turned_round() -> Renumbering {
        Renumbering::new((1..=64).rev().collect(), u64::MAX).unwrap()
    }

    fn rule(renumbering: &Renumbering, fitted: u64, left_out: u64) -> (u64, u64) {
        let image = renumbering.rule(Rule { fitted, left_out });
        (image.fitted, image.left_out)
    }

    fn order(
        renumbering: &Renumbering,
        wanted: u64,
        unwanted: u64,
        standard: u64,
    ) -> (u64, u64, u64) {
        let image = renumbering.order(Order { wanted, unwanted, standard });
        (image.wanted, image.unwanted, image.standard)
    }

    #[test]
    fn the_numbers_are_those_of_the_options_each_once() {
        let made = |numbers: &[u32], reversed| Renumbering::new(numbers.to_vec(), reversed);
        assert!(made(&[2, 1], 3).is_some() && made(&[], 0).is_some());
        let bad: [(&[u32], u64); 6] =
            [(&[1, 1], 0), (&[0, 1], 0), (&[1, 3], 0), (&[2], 0), (&[2, 1], 4), (&[], 1)];
        for (numbers, reversed) in bad {
            assert!(made(numbers, reversed).is_none(), "{numbers:?}");
        }
        let many: Vec<u32> = (1..=65).collect();
        assert!(made(&many[..64], u64::MAX).is_some() && made(&many, 0).is_none());
    }

    /// "1 or not 2" becomes "3 or 1", "2 or not 3" becomes "not 1 or not 2", and "not 1" becomes "not 3".
    #[test]
    fn an_entry_has_its_options_new_number_and_is_reversed_with_it() {
        assert_eq!(rule(&three(), 0b001, 0b010), (0b101, 0));
        assert_eq!(rule(&three(), 0b010, 0b100), (0, 0b011));
        assert_eq!(rule(&three(), 0, 0b001), (0, 0b100));
        assert_eq!(rule(&three(), 0, 0), (0, 0));
    }

    #[test]
    fn rules_reach_the_last_option() {
        assert_eq!(rule(&turned_round(), 1, 1 << 63), (1, 1 << 63));
        assert_eq!(rule(&turned_round(), 3, 0), (0, 3 << 62));
        assert_eq!(rule(&turned_round(), 0, u64::MAX), (u64::MAX, 0));
    }

    /// Wanted 2 becomes unwanted 1, and unwanted 2 wanted 1; options 1 and 3 stay as they are, as 3 and 2.
    #[test]
    fn a_reversed_wish_is_the_other_wish() {
        assert_eq!(order(&three(), 0b010, 0b100, 0), (0, 0b011, 0));
        assert_eq!(order(&three(), 0b101, 0b010, 0), (0b111, 0, 0));
        assert_eq!(order(&three(), 0, 0b101, 0), (0, 0b110, 0));
        assert_eq!(order(&turned_round(), 1, 1 << 63, 0), (1, 1 << 63, 0));
    }

    /// A standard option is wanted here, so that it is unwanted there where it is reversed; one that is unwanted
    /// here is not wanted.
    #[test]
    fn the_order_is_completed_before_it_is_reversed() {
        assert_eq!(order(&three(), 0, 0, 0b111), (0b110, 0b001, 0));
        assert_eq!(order(&three(), 0, 0b010, 0b010), (0b001, 0, 0));
        assert_eq!(order(&three(), 0b010, 0b100, 0b101), (0b100, 0b011, 0));
        assert_eq!(order(&three(), 0b010, 0, 0b010), (0, 0b001, 0));
    }

    #[test]
    fn a_choice_fits_what_was_fitted_or_is_reversed_and_was_left_out() {
        assert_eq!(three().choice(0b011), 0b100);
        assert_eq!(three().choice(0b000), 0b001);
        assert_eq!(three().choice(0b101), 0b111);
        assert_eq!(turned_round().choice(1), u64::MAX >> 1);
        assert_eq!(Renumbering::new(Vec::new(), 0).unwrap().choice(0), 0);
    }

    #[test]
    fn a_set_goes_by_the_numbers_alone() {
        assert_eq!(three().set(0b011), 0b101);
        assert_eq!(turned_round().set(0b110), 0b11 << 61);
    }

    #[test]
    fn the_way_back_has_the_old_numbers_and_reverses_under_the_new_ones() {
        assert_eq!(three().back(), Renumbering::new(vec![2, 3, 1], 0b001).unwrap());
        assert_eq!(three().back().back(), three());
        assert_eq!(turned_round().back(), turned_round());
        for choice in 0..8 {
            assert_eq!(three().back().choice(three().choice(choice)), choice);
        }
    }

    #[test]
    fn nothing_changes_with_the_same_numbers_and_no_reversed_option() {
        let changes_nothing = |numbers: &[u32], reversed| {
            Renumbering::new(numbers.to_vec(), reversed).unwrap().changes_nothing()
        };
        assert!(changes_nothing(&[1, 2, 3], 0) && changes_nothing(&[], 0));
        assert!(!changes_nothing(&[1, 3, 2], 0) && !changes_nothing(&[1, 2, 3], 4));
    }

    /// Of the rules "1 or not 2" and "2 or not 3" and the order that wants 3, each choice keeps all exactly if its
    /// image keeps theirs.
    #[test]
    fn a_choice_keeps_what_its_image_keeps() {
        let is_kept = |(fitted, left_out): (u64, u64), choice: u64| {
            fitted & choice != 0 || left_out & !choice != 0
        };
        let entries = [(0b001, 0b010), (0b010, 0b100), (0b100, 0)];
        let kept: Vec<u64> = (0..8)
            .filter(|&choice| entries.iter().all(|&entries| is_kept(entries, choice)))
            .collect();
        assert_eq!(kept, [0b111]);
        let images = entries.map(|(fitted, left_out)| rule(&three(), fitted, left_out));
        let kept: Vec<u64> = (0..8)
            .filter(|&choice| images.iter().all(|&entries| is_kept(entries, choice)))
            .collect();
        assert_eq!(kept, [three().choice(0b111)]);
    }
}
