//! Generated books and orders whose free options are settled in turns. Question number i of a seed is the same
//! wherever it is made.

use crate::free::{add, before_refusal, fill, free_and_others, insert};
use crate::free::{order, plain, refused_order, rule, too_many};
use crate::question::Turns;
use crate::random::Random;
use crate::refused::refused_bytes;
use optbook::bytes::book_bytes;
use optbook::{Book, Order, Rule, OPTIONS, RULES};

/// What is asked, in turn.
#[derive(Clone, Copy, PartialEq, Eq)]
enum Sort {
    /// A book of up to 12 options, all of which are free.
    Small,
    /// A larger one, and an order with most of its options.
    Large,
    /// One of 64 options and 1,024 rules, and such an order.
    Largest,
    /// A book and an order like those of a check.
    Plain,
    /// More free options than may be.
    TooMany,
    /// A book that is refused.
    RefusedBook,
    /// An order that is refused.
    RefusedOrder,
}

const TURN: [Sort; 10] = [
    Sort::Small,
    Sort::Large,
    Sort::Plain,
    Sort::Large,
    Sort::TooMany,
    Sort::Small,
    Sort::Large,
    Sort::RefusedOrder,
    Sort::Largest,
    Sort::RefusedBook,
];

/// So many options may be free.
const FREE: usize = 12;

/// So many rules are made for a book.
const TRIES: usize = 24;

/// The question with this number, counted from 0. The number of free options comes round with it, and every
/// second time the planner shall be able to force it.
pub fn turns(seed: u64, number: usize) -> Turns {
    let mut random = Random::new(seed ^ (number as u64).wrapping_mul(0xc2b2_ae3d_27d4_eb4f));
    let random = &mut random;
    let (turn, place) = (number / TURN.len(), number % TURN.len());
    let free = number % (FREE + 1);
    let forced = (turn / (FREE + 1) + place).is_multiple_of(2);
    let (book, order) = match TURN[place] {
        Sort::Small => aimed(random, free, free, forced, false),
        Sort::Large => {
            let options = match random.chance(1, 2) {
                true => OPTIONS,
                false => random.between(free + 1, OPTIONS),
            };
            aimed(random, options, free, forced, false)
        }
        Sort::Largest => aimed(random, OPTIONS, free, forced, true),
        Sort::Plain => plain(random, FREE + 4),
        Sort::TooMany => too_many(random, turn, FREE),
        Sort::RefusedOrder => refused_order(random, turn, FREE),
        Sort::RefusedBook => {
            let (book, order) = before_refusal(random);
            return Turns { book: refused_bytes(random, &book, 1 + turn % 6), order };
        }
    };
    Turns { book: book_bytes(&book), order }
}

/// A book, and an order with all but so many of its options, at the edge: rules are made one after the other,
/// and those stay with which the planner can force it. Where he shall not, there is one rule more, mostly at an
/// end. A full book has as many rules as there may be, and not all of its options are free.
fn aimed(
    random: &mut Random,
    options: usize,
    free: usize,
    forced: bool,
    is_full: bool,
) -> (Book, Order) {
    let order = order(random, options, free);
    let (mut book, mut others) = (Book { options, rules: Vec::new() }, Vec::new());
    let is_long = random.chance(1, 3);
    for _ in 0..TRIES {
        let rule = rule(random, &book, order, is_long);
        book.rules.push(rule);
        if !is_forced(&book, order) {
            others.extend(book.rules.pop());
        }
    }
    if is_full {
        fill(random, &mut book, order, RULES - usize::from(!forced));
    }
    if !forced {
        let other = match others.is_empty() {
            true => buyers_rule(random, &book, order),
            false => others[random.below(others.len())],
        };
        insert(random, &mut book, other);
    }
    (book, order)
}

fn is_forced(book: &Book, order: Order) -> bool {
    let turns = Turns { book: book_bytes(book), order };
    matches!(turns.port_settled(), Ok(answer) if answer.forced)
}

/// A rule that the buyer can break: of one entry of an option of his, or of none where he has none.
fn buyers_rule(random: &mut Random, book: &Book, order: Order) -> Rule {
    let [free, _] = free_and_others(book, order);
    let mut rule = Rule::default();
    if !free.is_empty() {
        let index = 2 * random.below(free.len().div_ceil(2));
        add(&mut rule, free[index], random.chance(1, 2));
    }
    rule
}

#[cfg(test)]
mod tests {
    use super::*;

    #[test]
    fn a_seed_gives_the_same_turns_and_another_gives_others() {
        let told = |seed| (0..60).map(|i| turns(seed, i).told()).collect::<Vec<_>>();
        assert_eq!(told(1), told(1));
        assert_ne!(told(1), told(2));
    }

    #[test]
    fn turns_that_are_aimed_at_come() {
        let mut random = Random::new(3);
        for free in 0..=FREE {
            for forced in [true, false] {
                for (options, is_full) in [(free, false), (free + 1, false), (OPTIONS, true)] {
                    let (book, order) = aimed(&mut random, options, free, forced, is_full);
                    assert_eq!(free_and_others(&book, order)[0].len(), free);
                    assert_eq!(is_forced(&book, order), forced);
                    assert_eq!(book.rules.len() == RULES, is_full);
                }
            }
        }
    }

    /// The answer stays.
    #[test]
    fn a_book_is_filled_with_what_it_says_already() {
        let mut random = Random::new(4);
        for free in 0..6 {
            let (mut book, order) = aimed(&mut random, OPTIONS, free, true, false);
            let settled = |book: &Book| Turns { book: book_bytes(book), order }.port_settled();
            let before = settled(&book);
            fill(&mut random, &mut book, order, RULES);
            assert_eq!((settled(&book), book.rules.len()), (before, RULES));
        }
    }
}
