//! The kinds of generated cases: whole books with an order, damaged bytes, and orders that are
//! refused. Case number i of a seed is the same wherever it is made.

use crate::orders::{above, contradictory, standard_above, with_standard};
use crate::question::{Check, ORDER};
use crate::random::Random;
use crate::shapes;
use optbook::bytes::{book_bytes, input_bytes};
use optbook::{first, Book, Order};

#[derive(Clone, Copy, Debug, PartialEq, Eq)]
pub enum Kind {
    Tiny,
    OptionBook,
    ThreeEntries,
    AllRules,
    Damaged,
    Contradictory,
    AboveN,
    StandardAboveN,
    ShortOrder,
}

/// All kinds, in the order in which they are told.
pub const KINDS: [Kind; 9] = [
    Kind::Tiny,
    Kind::OptionBook,
    Kind::ThreeEntries,
    Kind::AllRules,
    Kind::Damaged,
    Kind::Contradictory,
    Kind::AboveN,
    Kind::StandardAboveN,
    Kind::ShortOrder,
];

/// How often each kind comes in a run of 22 cases.
const TURNS: [Kind; 22] = [
    Kind::Tiny,
    Kind::OptionBook,
    Kind::ThreeEntries,
    Kind::Tiny,
    Kind::Damaged,
    Kind::OptionBook,
    Kind::Tiny,
    Kind::AllRules,
    Kind::ThreeEntries,
    Kind::Tiny,
    Kind::Contradictory,
    Kind::OptionBook,
    Kind::Damaged,
    Kind::Tiny,
    Kind::AboveN,
    Kind::ThreeEntries,
    Kind::OptionBook,
    Kind::Tiny,
    Kind::Damaged,
    Kind::OptionBook,
    Kind::AllRules,
    Kind::StandardAboveN,
];

impl Kind {
    pub fn name(self) -> &'static str {
        match self {
            Kind::Tiny => "tiny",
            Kind::OptionBook => "option book",
            Kind::ThreeEntries => "three entries",
            Kind::AllRules => "all rules",
            Kind::Damaged => "damaged bytes",
            Kind::Contradictory => "contradictory order",
            Kind::AboveN => "order above n",
            Kind::StandardAboveN => "standard above n",
            Kind::ShortOrder => "short order",
        }
    }
}

/// A case: its kind, and the check that is asked.
#[derive(Clone, Debug)]
pub struct Case {
    pub kind: Kind,
    pub check: Check,
}

/// The case with this number, counted from 0.
pub fn case(seed: u64, number: usize) -> Case {
    let mut random = Random::new(seed ^ (number as u64).wrapping_mul(0xd6e8_feb8_6659_fd93));
    let kind = match number % 400 {
        399 => Kind::ShortOrder,
        turn => TURNS[turn % TURNS.len()],
    };
    Case { kind, check: Check::of_program(input(&mut random, kind)) }
}

fn input(random: &mut Random, kind: Kind) -> Vec<u8> {
    match kind {
        Kind::Damaged => damaged(random),
        Kind::ShortOrder => (0..random.below(ORDER)).map(|_| random.word() as u8).collect(),
        _ => {
            let (order, book) = order_and_book(random, kind);
            input_bytes(order, &book_bytes(&book))
        }
    }
}

fn order_and_book(random: &mut Random, kind: Kind) -> (Order, Book) {
    let (order, book) = wishes_and_book(random, kind);
    let order = with_standard(random, order, book.options);
    match kind {
        Kind::Contradictory => (contradictory(random, order, book.options), book),
        Kind::AboveN => (above(random, order, book.options), book),
        Kind::StandardAboveN => (standard_above(random, order, book.options), book),
        _ => (order, book),
    }
}

/// A book, and an order without standard options that is not refused.
pub fn wishes_and_book(random: &mut Random, kind: Kind) -> (Order, Book) {
    match kind {
        Kind::OptionBook => {
            let options = random.between(6, 64);
            let one_of = random.between(3, 30);
            let book = shapes::option_book(random, options);
            (shapes::order(random, options, one_of), book)
        }
        // Books of 10 to 40 options mostly end with a verdict, larger ones often with stop 11.
        Kind::ThreeEntries => {
            let options = match random.chance(1, 20) {
                true => random.between(50, 64),
                false => random.between(10, 40),
            };
            let one_of = random.between(10, 60);
            let book = shapes::three_entries(random, options);
            (shapes::order(random, options, one_of), book)
        }
        Kind::AllRules => all_rules(random),
        Kind::Contradictory | Kind::AboveN | Kind::StandardAboveN => some_option_book(random),
        _ => {
            let book = shapes::tiny(random);
            let one_of = random.between(2, 8);
            (shapes::order(random, book.options, one_of), book)
        }
    }
}

/// All rules over 1 to 7 options, sometimes in another order, without one, or with an order.
fn all_rules(random: &mut Random) -> (Order, Book) {
    let mut book = shapes::all_rules(random.between(1, 7));
    if random.chance(1, 2) {
        random.shuffle(&mut book.rules);
    }
    if random.chance(1, 3) {
        let index = random.below(book.rules.len());
        book.rules.remove(index);
    }
    let order = match random.chance(1, 3) {
        true => shapes::order(random, book.options, 4),
        false => Order::default(),
    };
    (order, book)
}

/// A book of 1 to 63 options and some rules, so that there are options above it.
fn some_option_book(random: &mut Random) -> (Order, Book) {
    let options = random.between(1, 63);
    let book = shapes::option_book(random, options);
    (shapes::order(random, options, 6), book)
}

/// A book whose bytes were cut, lengthened or changed; the order before it is whole.
fn damaged(random: &mut Random) -> Vec<u8> {
    let kind = if random.chance(1, 2) { Kind::Tiny } else { Kind::OptionBook };
    let (order, book) = order_and_book(random, kind);
    let mut bytes = book_bytes(&book);
    match random.below(8) {
        0 => bytes.truncate(random.below(bytes.len())),
        1 => bytes.truncate(random.below(4)),
        2 => bytes.extend((0..random.between(1, 20)).map(|i| i as u8)),
        3 => bytes[0] = random.word() as u8,
        4 => bytes[0] = random.below(1 + book.options) as u8,
        5 => {
            bytes[1] = random.word() as u8;
            bytes[2] = random.below(8) as u8;
        }
        6 => put_in_both_words(random, &mut bytes, &book),
        _ => flip_bits(random, &mut bytes),
    }
    let options = usize::from(*bytes.first().unwrap_or(&0));
    let known = first(options);
    let [wanted, unwanted, standard] =
        [order.wanted, order.unwanted, order.standard].map(|set| set & known);
    input_bytes(Order { wanted, unwanted, standard }, &bytes)
}

/// Gives one rule, where there is one, its fitted options as left-out ones too.
fn put_in_both_words(random: &mut Random, bytes: &mut [u8], book: &Book) {
    let rules = book.rules.len();
    if rules > 0 {
        let fitted = 3 + 8 * random.below(rules);
        bytes.copy_within(fitted..fitted + 8, fitted + 8 * rules);
    }
}

/// Flips one to three bits, mostly of the rules.
fn flip_bits(random: &mut Random, bytes: &mut [u8]) {
    for _ in 0..random.between(1, 3) {
        let index = random.below(bytes.len());
        bytes[index] ^= 1 << random.below(8);
    }
}

#[cfg(test)]
mod tests {
    use super::*;
    use optbook::bytes::read_input;
    use optbook::sheet::Sheet;
    use optbook::text::{numbered_names, write};

    fn cases() -> Vec<Case> {
        (0..800).map(|number| case(5, number)).collect()
    }

    fn ending(case: &Case) -> String {
        let printed = port::run_program(&case.check.input).to_string();
        printed.split(' ').take(2).collect::<Vec<_>>().join(" ")
    }

    #[test]
    fn a_seed_gives_the_same_cases_and_another_gives_others() {
        let inputs = |seed| (0..40).map(|i| case(seed, i).check.input).collect::<Vec<_>>();
        assert_eq!(inputs(1), inputs(1));
        assert_ne!(inputs(1), inputs(2));
    }

    #[test]
    fn every_kind_comes() {
        let cases = cases();
        assert!(KINDS.iter().all(|&kind| cases.iter().any(|case| case.kind == kind)));
    }

    #[test]
    fn whole_kinds_are_readable_and_refused_kinds_are_refused() {
        for case in cases() {
            let readable = read_input(&case.check.input).is_ok();
            match case.kind {
                Kind::Contradictory => assert_eq!(ending(&case), "refused 8"),
                Kind::AboveN => assert_eq!(ending(&case), "refused 7"),
                Kind::StandardAboveN => assert_eq!(ending(&case), "refused 12"),
                Kind::ShortOrder => assert_eq!(ending(&case), "refused 1"),
                Kind::Damaged => (),
                kind => assert!(readable, "{} is not whole", kind.name()),
            }
        }
    }

    #[test]
    fn about_half_of_the_orders_have_standard_options_of_every_kind() {
        let orders: Vec<Order> =
            cases().iter().filter_map(|case| Some(case.check.parts()?.0)).collect();
        let has = |of: fn(&Order) -> u64| orders.iter().filter(|order| of(order) != 0).count();
        let share = 100 * has(|order| order.standard) / orders.len();
        assert!((40..60).contains(&share), "{share} of 100");
        assert!(has(|order| order.standard & order.wanted) > 100);
        assert!(has(|order| order.standard & order.unwanted) > 100);
        assert!(has(|order| order.standard & !order.wanted & !order.unwanted) > 100);
    }

    #[test]
    fn damage_reaches_every_refusal_of_a_book() {
        let damaged: Vec<Case> =
            (0..4000).map(|i| case(9, i)).filter(|case| case.kind == Kind::Damaged).collect();
        for number in 1..=6 {
            let due = format!("refused {number}");
            assert!(damaged.iter().any(|case| ending(case) == due), "no {due}");
        }
    }

    #[test]
    fn a_generated_book_reads_back_from_its_text() {
        for case in cases() {
            let Ok((order, book)) = read_input(&case.check.input) else { continue };
            let text = write(&numbered_names(book.options), &book, order);
            let sheet = Sheet::of("generated", &text).unwrap();
            assert_eq!((sheet.order(), sheet.book()), (order, book));
        }
    }
}
