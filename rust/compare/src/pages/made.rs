//! Generated pages: books and orders of all kinds, and such whose derived rules have every number of
//! characters. Page number i of a seed is the same wherever it is made.

use crate::kinds::{self, wishes_and_book, Kind};
use crate::orders::some_order;
use crate::question::{Page, ORDER};
use crate::random::Random;
use crate::refused::refused_bytes;
use crate::shapes::{self, distinct, union};
use optbook::bytes::{book_bytes, input_bytes};
use optbook::{first, option, Book, Order, Rule, OPTIONS};
use port::PROGRAM_ALLOWANCE;

/// What is asked.
#[derive(Clone, Copy, Debug, PartialEq, Eq)]
enum Sort {
    /// A case of one of the kinds.
    Case,
    /// Rules with one entry fewer each (`chain`).
    Chain,
    /// The same with options 1 to 15, with all options, and with the last option and few others.
    Fifteen,
    All,
    Last,
    /// All rules over some options.
    AllRules,
    /// A book that is refused.
    Refused,
    /// An order that is cut short.
    Short,
}

/// The sorts of a turn, before a rare one.
const TURN: [Sort; 10] = [
    Sort::Case,
    Sort::Chain,
    Sort::Case,
    Sort::AllRules,
    Sort::Case,
    Sort::Chain,
    Sort::Case,
    Sort::Refused,
    Sort::Case,
    Sort::Chain,
];

/// The sorts at the end of a turn, one in each.
const RARE: [Sort; 4] = [Sort::Last, Sort::Fifteen, Sort::All, Sort::Short];

/// So many cases of the kinds come in a turn, at its even numbers.
const CASES: usize = 5;

/// One page in so many is a longest one, first the page with this number. There are so many of them, in
/// turn, from this seed on.
const ONE_LONGEST: usize = 400;
const LONGEST: usize = 16;
const LONGEST_PAGES: usize = 14;
const LONGEST_SEED: usize = 3;

/// All rules are over at most so many options.
const MOST_IN_ALL_RULES: usize = 8;

/// One page in so many has a small allowance.
const ONE_SMALL: usize = 3;

/// The page with this number, counted from 0.
pub fn page(seed: u64, number: usize) -> Page {
    if number % ONE_LONGEST == LONGEST {
        return Page::of_program(longest(number / ONE_LONGEST));
    }
    let mut random = Random::new(seed ^ (number as u64).wrapping_mul(0xa24b_aed4_963e_e407));
    let (turn, position) = (number / (TURN.len() + 1), number % (TURN.len() + 1));
    let sort = *TURN.get(position).unwrap_or(&RARE[turn % RARE.len()]);
    let input = match sort {
        Sort::Case => kinds::case(!seed, turn * CASES + position / 2).check.input,
        Sort::Refused => refused(&mut random, 1 + turn % 6),
        Sort::Short => (0..random.below(ORDER)).map(|_| random.word() as u8).collect(),
        Sort::AllRules => {
            let book = shapes::all_rules(1 + turn % MOST_IN_ALL_RULES);
            input_bytes(Order::default(), &book_bytes(&book))
        }
        Sort::Chain | Sort::Fifteen | Sort::All | Sort::Last => {
            let (order, book) = chain(&mut random, sort, turn);
            input_bytes(order, &book_bytes(&book))
        }
    };
    let is_small = number.is_multiple_of(ONE_SMALL) && input.len() >= ORDER;
    let allowance = match is_small {
        true => small(&mut random),
        false => PROGRAM_ALLOWANCE,
    };
    Page { input, allowance }
}

/// A small allowance, which is none at times.
fn small(random: &mut Random) -> u32 {
    let digits = random.below(9);
    random.below(1 << digits) as u32
}

/// A book that is refused with this number, 1 to 6, and an order.
fn refused(random: &mut Random, number: usize) -> Vec<u8> {
    let (_, book) = wishes_and_book(random, Kind::AboveN);
    let order = some_order(random, book.options);
    input_bytes(order, &refused_bytes(random, &book, number))
}

/// The empty order on a book near the hardest ratio, whose run fills all places. It does so for certain,
/// since the books are the same for every seed.
fn longest(turn: usize) -> Vec<u8> {
    let seed = LONGEST_SEED + turn % LONGEST_PAGES;
    let book = shapes::three_entries(&mut Random::new(seed as u64), OPTIONS);
    input_bytes(Order::default(), &book_bytes(&book))
}

/// A free option and wishes for others, and two rules: each names all wishes so that they break it, and
/// the free option, one as fitted and one as left out. The run derives the rule of the wishes, then the
/// same without the last of them in the order's rules, and so on down to the empty rule.
fn chain(random: &mut Random, sort: Sort, turn: usize) -> (Order, Book) {
    let (options, wishes, free) = wishes(random, sort);
    let mut wanted = match random.below(4) {
        0 => 0,
        1 => wishes,
        2 => wishes & random.word(),
        _ => wishes & (random.word() | random.word()),
    };
    match sort {
        Sort::Fifteen => wanted = 0,
        Sort::Last if (turn / RARE.len()).is_multiple_of(2) => wanted |= option(OPTIONS - 1),
        Sort::Last => wanted &= !option(OPTIONS - 1),
        _ => (),
    }
    let unwanted = wishes & !wanted;
    let mut rules = vec![
        Rule { fitted: unwanted | free, left_out: wanted },
        Rule { fitted: unwanted, left_out: wanted | free },
    ];
    random.shuffle(&mut rules);
    let standard = wanted & random.word();
    let order = Order { wanted: wanted & !(standard & random.word()), unwanted, standard };
    (order, Book { options, rules })
}

/// The options of a book, those of them that are wished for, and one that is free.
fn wishes(random: &mut Random, sort: Sort) -> (usize, u64, u64) {
    if sort == Sort::Fifteen {
        let options = random.between(16, OPTIONS);
        return (options, first(15), option(random.between(15, options - 1)));
    }
    let options = match sort == Sort::Chain && random.chance(1, 2) {
        true => random.between(1, OPTIONS - 1),
        false => OPTIONS,
    };
    let count = match (sort, random.below(3)) {
        (Sort::All, _) => OPTIONS - 1,
        (Sort::Last, _) => random.between(0, 8),
        (_, 0) => random.between(0, 12),
        (_, 1) => random.between(8, 20),
        _ => random.below(options),
    };
    if sort == Sort::Last {
        let chosen = distinct(random, OPTIONS - 1, count + 1);
        return (OPTIONS, union(&chosen[1..]) | option(OPTIONS - 1), option(chosen[0]));
    }
    let chosen = distinct(random, options, count + 1);
    (options, union(&chosen[1..]), option(chosen[0]))
}

#[cfg(test)]
mod tests {
    use super::*;
    use crate::pages::read_back::{characters, entries};
    use port::{Ending, Outcome, CANNOT};

    fn outcome(page: &Page) -> Outcome {
        page.check().port_outcome()
    }

    #[test]
    fn a_seed_gives_the_same_pages_and_another_gives_others() {
        let told = |seed| (0..60).map(|i| page(seed, i).told()).collect::<Vec<_>>();
        assert_eq!(told(1), told(1));
        assert_ne!(told(1), told(2));
    }

    #[test]
    fn the_longest_page_has_all_its_rules_whatever_the_seed_is() {
        for turn in 0..LONGEST_PAGES {
            let Outcome { ending, derived, .. } = outcome(&page(7, ONE_LONGEST * turn + LONGEST));
            assert_eq!((ending, derived.len()), (Ending::Stopped(11), 2048), "{turn}");
        }
    }

    /// Each derived rule of a chain has an entry fewer than the one before it.
    #[test]
    fn a_chain_has_rules_down_to_the_empty_one() {
        let mut random = Random::new(3);
        for turn in 0..80 {
            let sort = [Sort::Chain, Sort::Fifteen, Sort::All, Sort::Last][turn % 4];
            let (order, book) = chain(&mut random, sort, turn);
            let Order { wanted, unwanted, .. } = order.completed();
            let wishes = (wanted | unwanted).count_ones();
            let input = input_bytes(order, &book_bytes(&book));
            let Outcome { ending, derived, branchings, .. } = outcome(&Page::of_program(input));
            assert_eq!((ending, branchings), (CANNOT, 1 + wishes));
            let counts: Vec<u32> = derived.into_iter().map(entries).collect();
            assert_eq!(counts, (0..=wishes).rev().collect::<Vec<_>>());
        }
    }

    #[test]
    fn the_first_fifteen_options_and_all_options_come() {
        let mut random = Random::new(4);
        let mut first_rule = |sort| {
            let (order, book) = chain(&mut random, sort, 0);
            let input = input_bytes(order, &book_bytes(&book));
            outcome(&Page::of_program(input)).derived[0]
        };
        assert_eq!(characters(first_rule(Sort::Fifteen)), 35);
        assert_eq!(entries(first_rule(Sort::All)), 63);
        assert_eq!(first_rule(Sort::Last).left_out >> 63, 1);
    }

    #[test]
    fn small_allowances_come_with_whole_orders() {
        let pages: Vec<Page> = (0..400).map(|number| page(5, number)).collect();
        let small = pages.iter().filter(|page| page.allowance != PROGRAM_ALLOWANCE);
        assert!((100..140).contains(&small.clone().count()));
        assert!(small.clone().all(|page| page.parts().is_some() && page.allowance < 256));
        assert!(small.filter(|page| page.allowance == 0).count() > 3);
    }
}
