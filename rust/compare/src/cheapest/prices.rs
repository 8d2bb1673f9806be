//! Generated prices and rebates, in their range and outside it.

use crate::random::Random;
use optbook::{number, OPTIONS};

/// The highest price, and the highest rebate.
pub const PRICE: u64 = 10_000_000;
pub const REBATE: u64 = 1000;

/// So many ways there are in which prices or rebate are refused.
const FAULTS: usize = 8;

/// As many prices as are read for so many options or more, all in their range: equal ones, none, few different
/// ones or the options' numbers, so that totals are often equal, powers of two, any, or the limits. Those that
/// are not read may be outside it.
pub fn prices(random: &mut Random, options: usize) -> Vec<u64> {
    let length = match random.below(6) {
        0 => options,
        1 => random.between(options, OPTIONS),
        2 => random.between(OPTIONS + 1, OPTIONS + 16),
        _ => OPTIONS,
    };
    let kind = random.below(8);
    let same = match random.chance(1, 3) {
        true => PRICE,
        false => random.between(1, 999) as u64,
    };
    let mut price = |index: usize| match kind {
        0 => same,
        1 => 0,
        2 => random.below(4) as u64,
        3 => same / 2 * random.below(3) as u64,
        4 => index as u64 + 1,
        5 => 1 << random.below(24),
        6 => random.word() % (PRICE + 1),
        _ => [0, 1, PRICE - 1, PRICE][random.below(4)],
    };
    let mut prices: Vec<u64> = (0..length).map(&mut price).collect();
    if random.chance(1, 3) {
        prices[options..].iter_mut().for_each(|price| *price = too_high(random));
    }
    prices
}

/// A price above the highest, mostly by one.
fn too_high(random: &mut Random) -> u64 {
    let any = random.word() | 1 << 63;
    [PRICE + 1, PRICE + 1, 1 << 32, u64::MAX, any][random.below(5)]
}

/// A rebate in its range, often of a half.
pub fn rebate(random: &mut Random) -> u64 {
    match random.below(8) {
        0 => 0,
        1 => 1,
        2 | 3 => 500,
        4 => REBATE - 1,
        5 => REBATE,
        6 => 50 * random.below(21) as u64,
        _ => random.word() % (REBATE + 1),
    }
}

/// Prices for so many options, of which there is one at least, and a rebate, which are refused in this way, or
/// in the way that is as many turns on. In one way the price of one of these unwanted options is too high, or
/// that of the first option where none is unwanted.
pub fn refused(random: &mut Random, options: usize, unwanted: u64, way: usize) -> (Vec<u64>, u64) {
    let (mut prices, mut rebate) = (prices(random, options), rebate(random));
    let index = match unwanted {
        0 => 0,
        _ => number(unwanted) as usize - 1,
    };
    match way % FAULTS {
        0 => prices[random.below(options)] = PRICE + 1,
        1 => prices[options - 1] = too_high(random),
        2 => prices[0] = too_high(random),
        3 => prices[index] = too_high(random),
        4 => rebate = REBATE + 1,
        5 => rebate |= 1 << random.between(32, 63),
        6 => prices.truncate(options - 1),
        _ => prices.clear(),
    }
    (prices, rebate)
}

#[cfg(test)]
mod tests {
    use super::*;
    use optbook::first;

    fn are_permitted(options: usize, prices: &[u64], rebate: u64) -> bool {
        prices.len() >= options
            && prices[..options].iter().all(|price| *price <= PRICE)
            && rebate <= REBATE
    }

    #[test]
    fn prices_are_in_their_range_and_others_are_not() {
        let mut random = Random::new(1);
        for way in 0..400 {
            let options = random.below(65);
            let good = (prices(&mut random, options), rebate(&mut random));
            assert!(are_permitted(options, &good.0, good.1));
            let options = random.between(1, 64);
            let unwanted = random.word() & first(options);
            let (bad, rebate) = refused(&mut random, options, unwanted, way);
            assert!(!are_permitted(options, &bad, rebate), "{way}");
        }
    }
}
