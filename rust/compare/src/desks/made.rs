//! Generated desks, and a book for the orders of each. Desk number i of a seed is the same wherever it is
//! made, and so is its book.

use crate::orders::with_standard;
use crate::question::Desk;
use crate::random::Random;
use crate::shapes;
use optbook::bytes::book_bytes;
use optbook::{Order, OPTIONS};
use port::Call;

/// The numbers of options come in turn, 0 to this; after them one of those above.
const MOST: usize = 70;
const ABOVE: [u32; 8] = [65, 128, 255, 256, 320, 1 << 16, (1 << 16) + 3, u32::MAX];

/// One in so many desks keeps all drafts before its other calls.
const ONE_FULL: usize = 23;

/// The drafts of a desk, and the most calls.
const DRAFTS: u32 = 16;
const CALLS: usize = 40;

/// What is added to a good number to make one that is mostly not, though its lowest bits are the good one's.
const BEYOND: [u32; 6] = [32, 64, 128, 256, 1 << 16, 1 << 31];

/// The desk with this number, counted from 0.
pub fn desk(seed: u64, number: usize) -> Desk {
    let mut random = Random::new(seed ^ (number as u64).wrapping_mul(0x8cb9_2ba7_2f3d_8dd7));
    let options = match number % (MOST + 1 + ABOVE.len()) {
        turn @ 0..=MOST => turn as u32,
        turn => ABOVE[turn - MOST - 1],
    };
    let numbers = Numbers::new(&mut random, options);
    let mut calls = Vec::new();
    if number % ONE_FULL == ONE_FULL / 2 {
        for draft in 1..=DRAFTS {
            let option = numbers.option(&mut random);
            calls.push(Call::Set { option, fitted: random.chance(1, 2) });
            calls.push(Call::Keep { draft });
        }
    }
    let more = random.below(1 + CALLS - calls.len());
    calls.extend((0..more).map(|_| call(&mut random, &numbers)));
    Desk { options, calls }
}

/// A book of as many options as a desk has that was made for so many, and standard options.
pub fn book(seed: u64, number: usize, options: u32) -> (Vec<u8>, u64) {
    let mut random = Random::new(!seed ^ (number as u64).wrapping_mul(0x8cb9_2ba7_2f3d_8dd7));
    let options = match options as usize {
        options @ 0..=OPTIONS => options,
        _ => 0,
    };
    let book = shapes::option_book(&mut random, options);
    let standard = with_standard(&mut random, Order::default(), options).standard;
    (book_bytes(&book), standard)
}

/// The numbers that calls name: a few options and drafts again and again, and others now and then.
struct Numbers {
    options: u32,
    few: Vec<u32>,
    drafts: Vec<u32>,
}

impl Numbers {
    fn new(random: &mut Random, options: u32) -> Numbers {
        let last = options.clamp(1, OPTIONS as u32) as usize;
        let few = (0..random.between(1, 4)).map(|_| random.between(1, last) as u32).collect();
        let draft = |random: &mut Random| random.between(1, DRAFTS as usize) as u32;
        let drafts = (0..random.between(1, 3)).map(|_| draft(random)).collect();
        Numbers { options, few, drafts }
    }

    /// An option that is mostly one of the desk's.
    fn option(&self, random: &mut Random) -> u32 {
        let one_of_few = self.few[random.below(self.few.len())];
        match random.below(20) {
            0 => 0,
            1 => self.options.saturating_add(1),
            2 => beyond(random, one_of_few),
            3 => random.between(1, OPTIONS + 1) as u32,
            4 => self.options,
            _ => one_of_few,
        }
    }

    /// A draft's number that is mostly good.
    fn draft(&self, random: &mut Random) -> u32 {
        let one_of_few = self.drafts[random.below(self.drafts.len())];
        match random.below(20) {
            0 => 0,
            1 => DRAFTS + 1,
            2 => beyond(random, one_of_few),
            3 | 4 => random.between(1, DRAFTS as usize) as u32,
            _ => one_of_few,
        }
    }
}

/// A call.
fn call(random: &mut Random, numbers: &Numbers) -> Call {
    match random.below(10) {
        0..=3 => Call::Set { option: numbers.option(random), fitted: random.chance(1, 2) },
        4 | 5 => Call::Clear { option: numbers.option(random) },
        6 | 7 => Call::Keep { draft: numbers.draft(random) },
        _ => Call::Return { draft: numbers.draft(random) },
    }
}

/// A number that is mostly above all good ones, and has the lowest bits of this one; or the highest there is.
pub fn beyond(random: &mut Random, good: u32) -> u32 {
    match random.below(BEYOND.len() + 1) {
        at if at < BEYOND.len() => BEYOND[at] + good,
        _ => u32::MAX,
    }
}

#[cfg(test)]
mod tests {
    use super::*;

    #[test]
    fn a_seed_gives_the_same_desks_and_another_gives_others() {
        let made = |seed| {
            let one = |number| (desk(seed, number).told(), book(seed, number, 7));
            (0..40).map(one).collect::<Vec<_>>()
        };
        assert_eq!(made(1), made(1));
        assert_ne!(made(1), made(2));
    }

    #[test]
    fn every_number_of_options_up_to_70_comes() {
        let desks: Vec<Desk> = (0..400).map(|number| desk(5, number)).collect();
        for options in (0..=70).chain(ABOVE) {
            assert!(desks.iter().filter(|desk| desk.options == options).count() >= 5, "{options}");
        }
        assert!(desks.iter().all(|desk| desk.calls.len() <= CALLS));
    }

    #[test]
    fn a_desks_book_has_its_options() {
        for options in 0..=70 {
            let (bytes, standard) = book(5, options as usize, options);
            let due = if options > 64 { 0 } else { options };
            assert_eq!(u32::from(bytes[0]), due);
            assert_eq!(standard & !optbook::first(due as usize), 0);
        }
    }
}
