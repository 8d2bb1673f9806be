//! Generated books and orders, each with other numbers and reversed names for its options. Question number i of a
//! seed is the same wherever it is made.

use crate::kinds::{wishes_and_book, Kind};
use crate::orders::with_standard;
use crate::question::Check;
use crate::random::Random;
use crate::shapes;
use optbook::bytes::{book_bytes, input_bytes};
use optbook::{first, option, Book, Order, Rule, OPTIONS};
use port::{Places, Renumbering, PROGRAM_ALLOWANCE, PROGRAM_PLACES, PROGRAM_RECORD_PLACES};

/// A book and an order, and how another office writes them: its numbers and reversed options, and whether it hands
/// its order over with a standard word or as two words. Its check has limits of its own.
#[derive(Clone, Debug)]
pub struct Renumbered {
    pub book: Book,
    pub order: Order,
    pub renumbering: Renumbering,
    pub with_standard: bool,
    pub limits: [Limits; 2],
}

/// The allowance of a check, and the lengths of the lent tables for derived rules and for records.
#[derive(Clone, Copy, Debug, PartialEq, Eq)]
pub struct Limits {
    pub allowance: u32,
    pub derived: usize,
    pub records: usize,
}

/// The program's own.
pub const OF_PROGRAM: Limits = Limits {
    allowance: PROGRAM_ALLOWANCE,
    derived: PROGRAM_PLACES,
    records: PROGRAM_RECORD_PLACES,
};

impl Limits {
    pub fn check(self, order: Order, book: &Book) -> Check {
        let places = Places::equal(self.derived, self.records);
        Check { input: input_bytes(order, &book_bytes(book)), places, allowance: self.allowance }
    }
}

/// The books, in turn: of a kind, of 64 options, or chains.
#[derive(Clone, Copy)]
enum Sort {
    Of(Kind),
    Full,
    Chain,
}

const TURN: [Sort; 13] = [
    Sort::Of(Kind::Tiny),
    Sort::Of(Kind::OptionBook),
    Sort::Chain,
    Sort::Of(Kind::ThreeEntries),
    Sort::Of(Kind::Tiny),
    Sort::Of(Kind::AllRules),
    Sort::Of(Kind::OptionBook),
    Sort::Full,
    Sort::Of(Kind::Tiny),
    Sort::Chain,
    Sort::Of(Kind::ThreeEntries),
    Sort::Of(Kind::OptionBook),
    Sort::Of(Kind::AllRules),
];

/// The new numbers: the old ones, two neighbours in each other's place, the last first, or any.
#[derive(Clone, Copy)]
enum Numbers {
    Same,
    Neighbours,
    TurnedRound,
    Any,
}

const NUMBERS: [Numbers; 4] =
    [Numbers::Same, Numbers::Neighbours, Numbers::TurnedRound, Numbers::Any];

/// The reversed options.
#[derive(Clone, Copy)]
enum Reversed {
    None,
    One,
    All,
    Wanted,
    Unwanted,
    Standard,
    Any,
}

const REVERSED: [Reversed; 7] = [
    Reversed::None,
    Reversed::One,
    Reversed::All,
    Reversed::Wanted,
    Reversed::Unwanted,
    Reversed::Standard,
    Reversed::Any,
];

/// The question with this number, counted from 0. All pairs of numbers and reversed options come round, and in each
/// second round the order is handed over with a standard word.
pub fn renumbered(seed: u64, number: usize) -> Renumbered {
    let mut random = Random::new(seed ^ (number as u64).wrapping_mul(0xa24b_aed4_963e_e407));
    let random = &mut random;
    let (order, book) = match TURN[number % TURN.len()] {
        Sort::Of(kind) => wishes_and_book(random, kind),
        Sort::Full => {
            let one_of = random.between(3, 30);
            (shapes::order(random, OPTIONS, one_of), shapes::option_book(random, OPTIONS))
        }
        Sort::Chain => chain(random),
    };
    let order = with_standard(random, order, book.options);
    let numbers = numbers(random, book.options, NUMBERS[number % NUMBERS.len()]);
    let reversed = reversed(random, book.options, order, REVERSED[number % REVERSED.len()]);
    let renumbering = Renumbering::new(numbers, reversed).expect("each number comes once");
    let limits = limits(random, renumbering.changes_nothing());
    let with_standard = number / (NUMBERS.len() * REVERSED.len()) % 2 == 1;
    Renumbered { book, order, renumbering, with_standard, limits }
}

/// A chain through some of the options, each fitted or left out: the first one is wished, each asks for the next, and
/// mostly a rule forbids the last. So the verdict goes by each entry of just these options.
fn chain(random: &mut Random) -> (Order, Book) {
    let options = if random.chance(1, 2) { OPTIONS } else { random.between(2, OPTIONS) };
    let links = random.between(1, options);
    let links = shapes::distinct(random, options, links).into_iter().map(option);
    let links: Vec<(u64, bool)> = links.map(|link| (link, random.chance(1, 2))).collect();
    let mut rules: Vec<Rule> = links.windows(2).map(|two| either(not(two[0]), two[1])).collect();
    let (start, end) = (links[0], links[links.len() - 1]);
    if random.chance(3, 4) {
        rules.push(either(not(end), not(end)));
    }
    random.shuffle(&mut rules);
    let Rule { fitted, left_out } = either(start, start);
    let order = Order { wanted: fitted, unwanted: left_out, standard: 0 };
    (order, Book { options, rules })
}

/// The option the other way round.
fn not((option, is_fitted): (u64, bool)) -> (u64, bool) {
    (option, !is_fitted)
}

/// The rule that one of the two options, fitted or left out, keeps.
fn either(one: (u64, bool), other: (u64, bool)) -> Rule {
    let mut rule = Rule::default();
    for (option, is_fitted) in [one, other] {
        match is_fitted {
            true => rule.fitted |= option,
            false => rule.left_out |= option,
        }
    }
    rule
}

fn numbers(random: &mut Random, options: usize, numbers: Numbers) -> Vec<u32> {
    let mut all: Vec<u32> = (1..=options as u32).collect();
    match numbers {
        Numbers::Same => (),
        Numbers::Neighbours if options < 2 => (),
        Numbers::Neighbours => {
            let index = random.below(options - 1);
            all.swap(index, index + 1);
        }
        Numbers::TurnedRound => all.reverse(),
        Numbers::Any => random.shuffle(&mut all),
    }
    all
}

fn reversed(random: &mut Random, options: usize, order: Order, reversed: Reversed) -> u64 {
    match reversed {
        Reversed::None => 0,
        Reversed::One if options == 0 => 0,
        Reversed::One => option(random.below(options)),
        Reversed::All => first(options),
        Reversed::Wanted => order.wanted,
        Reversed::Unwanted => order.unwanted,
        Reversed::Standard => order.standard,
        Reversed::Any => first(options) & random.word(),
    }
}

/// Mostly the program's; in three of eight cases at least one check has small ones. Where nothing changes, both mostly
/// have the same.
fn limits(random: &mut Random, nothing_changes: bool) -> [Limits; 2] {
    let are_small = match random.below(8) {
        0 => [true, true],
        1 => [true, false],
        2 => [false, true],
        _ => [false, false],
    };
    let [here, there] = are_small.map(|is_small| match is_small {
        true => small_limits(random),
        false => OF_PROGRAM,
    });
    match nothing_changes && random.chance(3, 4) {
        true => [here, here],
        false => [here, there],
    }
}

/// A small allowance, few places, or both.
fn small_limits(random: &mut Random) -> Limits {
    let records = random.between(PROGRAM_RECORD_PLACES, PROGRAM_RECORD_PLACES + 6);
    let (allowance, derived) = (few(random), few(random));
    match random.below(3) {
        0 => Limits { allowance: allowance as u32, records, ..OF_PROGRAM },
        1 => Limits { derived, records, ..OF_PROGRAM },
        _ => Limits { allowance: allowance as u32, derived, records },
    }
}

fn few(random: &mut Random) -> usize {
    let most = [2, 10, 60][random.below(3)];
    random.between(0, most)
}

#[cfg(test)]
mod tests {
    use super::*;
    use optbook::bytes::read_input;
    use port::CAN;

    #[test]
    fn a_seed_gives_the_same_questions_and_another_gives_others() {
        let told = |seed| {
            let asked = (0..60).map(|number| renumbered(seed, number));
            asked.map(|asked| format!("{asked:?}")).collect::<Vec<_>>()
        };
        assert_eq!(told(1), told(1));
        assert_ne!(told(1), told(2));
    }

    #[test]
    fn books_and_orders_are_whole_and_have_a_number_for_each_option() {
        for number in 0..200 {
            let Renumbered { book, order, renumbering, limits, .. } = renumbered(3, number);
            let check = limits[0].check(order, &book);
            assert_eq!(renumbering.numbers().len(), book.options);
            assert_eq!(read_input(&check.input), Ok((order, book)));
            assert!(limits
                .iter()
                .all(|limits| limits.check(order, &Book::default()).places.are_permitted()));
        }
    }

    /// Without any rule of a chain that cannot be built it can be.
    #[test]
    fn the_verdict_on_a_chain_goes_by_each_of_its_rules() {
        let mut random = Random::new(1);
        let (mut can, mut cannot) = (0, 0);
        for _ in 0..60 {
            let (order, book) = chain(&mut random);
            let ending = |book: &Book| OF_PROGRAM.check(order, book).port_outcome().ending;
            match ending(&book) {
                CAN => can += 1,
                _ => {
                    cannot += 1;
                    for index in 0..book.rules.len() {
                        let mut without = book.clone();
                        without.rules.remove(index);
                        assert_eq!(ending(&without), CAN);
                    }
                }
            }
        }
        assert!(can > 5 && cannot > 30, "{can}, {cannot}");
    }

    #[test]
    fn each_sort_of_numbers_is_as_it_is_named() {
        let mut random = Random::new(1);
        let mut of = |options, sort| numbers(&mut random, options, sort);
        assert_eq!(of(4, Numbers::Same), [1, 2, 3, 4]);
        assert_eq!(of(4, Numbers::TurnedRound), [4, 3, 2, 1]);
        assert_eq!(of(2, Numbers::Neighbours), [2, 1]);
        for _ in 0..40 {
            let near = of(5, Numbers::Neighbours);
            let moved: Vec<usize> =
                (0..5).filter(|&index| near[index] != index as u32 + 1).collect();
            assert!(moved.len() == 2 && moved[0] + 1 == moved[1], "{near:?}");
        }
        let mut any = of(20, Numbers::Any);
        assert_ne!(any, of(20, Numbers::Same));
        any.sort();
        assert_eq!(any, of(20, Numbers::Same));
        for sort in NUMBERS {
            assert_eq!([of(0, sort), of(1, sort)], [vec![], vec![1]]);
        }
    }

    #[test]
    fn each_sort_of_reversed_options_is_as_it_is_named() {
        let mut random = Random::new(1);
        let order = Order { wanted: 0b0011, unwanted: 0b0100, standard: 0b1001 };
        let mut of = |options, sort| reversed(&mut random, options, order, sort);
        let due = [0, 0b11111, 0b0011, 0b0100, 0b1001];
        let sorts = [
            Reversed::None,
            Reversed::All,
            Reversed::Wanted,
            Reversed::Unwanted,
            Reversed::Standard,
        ];
        assert_eq!(sorts.map(|sort| of(5, sort)), due);
        for _ in 0..40 {
            assert!(of(5, Reversed::One).is_power_of_two() && of(5, Reversed::One) < 32);
            assert!(of(5, Reversed::Any) < 32);
        }
        assert_eq!([Reversed::One, Reversed::All, Reversed::Any].map(|sort| of(0, sort)), [0; 3]);
    }

    #[test]
    fn most_limits_are_the_programs_and_equal_where_nothing_changes() {
        let mut random = Random::new(1);
        let mut made = |nothing_changes| -> Vec<[Limits; 2]> {
            (0..400).map(|_| limits(&mut random, nothing_changes)).collect()
        };
        let of_program =
            |made: &[[Limits; 2]]| made.iter().filter(|both| **both == [OF_PROGRAM; 2]).count();
        let unequal = |made: &[[Limits; 2]]| made.iter().filter(|both| both[0] != both[1]).count();
        let (changed, same) = (made(false), made(true));
        assert!((200..300).contains(&of_program(&changed)) && unequal(&changed) > 100);
        assert!((10..80).contains(&unequal(&same)));
    }
}
