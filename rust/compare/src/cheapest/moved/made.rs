//! Generated rises of one price. Those of question number i of a seed are the same wherever they are made.

use crate::cheapest::prices::PRICE;
use crate::cheapest::run::Run;
use crate::question::Cheapest;
use crate::random::Random;
use optbook::{first, option};
use port::Quote;

/// The price of the option with this index, counted from 0, rises by so much.
#[derive(Clone, Copy, Debug, PartialEq, Eq)]
pub struct Rise {
    pub index: usize,
    pub by: u64,
}

impl Rise {
    /// The option, as a set.
    pub fn option(self) -> u64 {
        option(self.index)
    }

    /// The question at the new price.
    pub fn after(self, asked: &Cheapest) -> Cheapest {
        let mut after = asked.clone();
        after.prices[self.index] += self.by;
        after
    }
}

/// Two or three rises, each from the old prices, for the question with this number, counted from 0; none where
/// nothing can be built or there is no option.
pub fn rises(seed: u64, number: usize, run: &Run) -> Vec<Rise> {
    let mut random = Random::new(!seed ^ (number as u64).wrapping_mul(0x9fb2_1c65_1e98_df25));
    match run.quoted {
        Ok(Some(quote)) if run.asked.options() > 0 => {
            (0..random.between(2, 3)).map(|_| rise(&mut random, run, quote)).collect()
        }
        _ => Vec::new(),
    }
}

/// A rise of the price of a fitted option, of one that is also free, of a free one that is left out, or of any; and
/// by 0, by 1, by little, by any number up to the highest price, or just to it.
fn rise(random: &mut Random, run: &Run, quote: &Quote) -> Rise {
    let all = first(run.asked.options());
    let among = match random.below(4) {
        0 => quote.choice,
        1 => run.all_free() & quote.choice,
        2 => run.all_free() & !quote.choice,
        _ => all,
    };
    let index = one_of(random, if among == 0 { all } else { among });
    let most = PRICE - run.asked.prices[index];
    let by = match random.below(8) {
        0 => 0,
        1 | 2 => 1,
        3 | 4 => random.between(2, 20) as u64,
        5 | 6 => random.word() % (most + 1),
        _ => most,
    };
    Rise { index, by: by.min(most) }
}

/// The index of one of these options.
fn one_of(random: &mut Random, options: u64) -> usize {
    let mut left = options;
    for _ in 0..random.below(options.count_ones() as usize) {
        left &= left - 1;
    }
    left.trailing_zeros() as usize
}

#[cfg(test)]
mod tests {
    use super::*;
    use crate::cheapest::cheapest;

    /// The rises of questions of this seed, each with the question.
    fn made(seed: u64) -> Vec<(Cheapest, Rise)> {
        let of = |number| {
            let asked = cheapest(seed, number);
            let quoted = asked.by_branches();
            let rises = rises(seed, number, &Run::new(&asked, &quoted));
            rises.into_iter().map(move |rise| (asked.clone(), rise)).collect::<Vec<_>>()
        };
        (0..60).flat_map(of).collect()
    }

    #[test]
    fn a_seed_gives_the_same_rises_and_another_gives_others() {
        let rises = |seed| made(seed).into_iter().map(|(_, rise)| rise).collect::<Vec<_>>();
        assert_eq!(rises(1), rises(1));
        assert_ne!(rises(1), rises(2));
    }

    #[test]
    fn one_price_alone_rises_and_stays_in_its_range() {
        let made = made(3);
        assert!(made.len() > 40);
        for (asked, rise) in made {
            let after = rise.after(&asked);
            assert!(rise.index < asked.options() && after.prices[rise.index] <= PRICE);
            assert!(matches!(after.by_branches(), Ok(Some(_))));
            let old = Cheapest { prices: asked.prices.clone(), ..after.clone() };
            assert_eq!(old.told(), asked.told());
            let moved = after.prices.iter().zip(&asked.prices).map(|(new, old)| new - old);
            assert_eq!(moved.sum::<u64>(), rise.by);
        }
    }

    #[test]
    fn each_option_of_a_set_comes() {
        let mut random = Random::new(1);
        let seen: u64 =
            (0..200).map(|_| option(one_of(&mut random, 1 << 63 | 0b1010))).fold(0, |a, b| a | b);
        assert_eq!(seen, 1 << 63 | 0b1010);
    }

    #[test]
    fn no_price_rises_where_nothing_can_be_built_or_there_is_no_option() {
        let of = |book: &[u8]| {
            let prices = vec![0; 64];
            let asked =
                Cheapest { book: book.to_vec(), order: Default::default(), prices, rebate: 0 };
            let quoted = asked.by_branches();
            rises(1, 0, &Run::new(&asked, &quoted)).len()
        };
        assert_eq!([of(&[0, 0, 0]), of(&[0, 0])], [0, 0]);
        let with_the_empty_rule: Vec<u8> = [1, 1, 0].into_iter().chain([0; 16]).collect();
        assert_eq!(of(&with_the_empty_rule), 0);
        assert!(of(&[1, 0, 0]) >= 2);
    }
}
