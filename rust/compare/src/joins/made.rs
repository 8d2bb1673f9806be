//! Generated pairs of books to join. Join number i of a seed is the same wherever it is made.

use crate::question::Join;
use crate::random::Random;
use crate::refused::refused_bytes;
use crate::shapes::{self, distinct};
use optbook::bytes::book_bytes;
use optbook::{Book, Rule, OPTIONS, RULES};

/// What is asked, in turn.
#[derive(Clone, Copy)]
enum Sort {
    /// Two small books, all of whose choices are tried.
    Small,
    /// Small ones without options or rules, or with all options of one or both paired.
    Bare,
    /// Two larger ones.
    Large,
    /// Pairs with a fault.
    BadPairs,
    /// Numbers of options or of rules around the most that a book has.
    Limits,
    /// A book that is refused, or two.
    Refused,
}

const TURN: [Sort; 6] =
    [Sort::Small, Sort::Large, Sort::BadPairs, Sort::Bare, Sort::Limits, Sort::Refused];

/// The faults of pairs, one in each turn: a byte too few; option 0, n + 1, a later one, or one that is already
/// paired, of the first book and of the second; and a pair that comes twice.
#[derive(Clone, Copy, PartialEq, Eq)]
enum Fault {
    Odd,
    Zero(usize),
    Next(usize),
    Later(usize),
    Again(usize),
    Twice,
}

const FAULTS: [Fault; 10] = [
    Fault::Odd,
    Fault::Zero(0),
    Fault::Zero(1),
    Fault::Next(0),
    Fault::Next(1),
    Fault::Later(0),
    Fault::Later(1),
    Fault::Again(0),
    Fault::Again(1),
    Fault::Twice,
];

/// Pairs of options, of the first book and of the second.
type Pairs = Vec<[u8; 2]>;

/// The join with this number, counted from 0.
pub fn join(seed: u64, number: usize) -> Join {
    let mut random = Random::new(seed ^ (number as u64).wrapping_mul(0x9fb2_1c65_1e98_df25));
    let random = &mut random;
    let (turn, sort) = (number / TURN.len(), TURN[number % TURN.len()]);
    let (books, pairs) = match sort {
        Sort::Small => paired([(); 2].map(|()| small(random)), random),
        Sort::Bare => bare(random, turn),
        Sort::Large => paired([(); 2].map(|()| large(random, turn)), random),
        Sort::BadPairs => {
            let books = [(); 2].map(|()| for_pairs(random, OPTIONS));
            let pairs = bad_pairs(random, sizes(&books), FAULTS[turn % FAULTS.len()]);
            (books, pairs)
        }
        Sort::Limits if turn.is_multiple_of(2) => around_options(random, turn / 2),
        Sort::Limits => around_rules(random, turn / 2),
        Sort::Refused => {
            let (books, mut pairs) =
                paired([(); 2].map(|()| for_pairs(random, OPTIONS - 1)), random);
            if random.chance(1, 2) {
                pairs.push(1);
            }
            (books, pairs)
        }
    };
    let exact = 3 + 16 * books.iter().map(|book| book.rules.len()).sum::<usize>();
    let room = match sort {
        Sort::Limits => enough(random, exact),
        Sort::Refused if random.chance(1, 2) => 0,
        _ => some_room(random, exact),
    };
    let [first, second] = match sort {
        Sort::Refused => refused(random, books, turn),
        _ => books.map(|book| book_bytes(&book)),
    };
    Join { first, second, pairs, room }
}

fn sizes(books: &[Book; 2]) -> [usize; 2] {
    books.each_ref().map(|book| book.options)
}

fn small(random: &mut Random) -> Book {
    match random.chance(1, 2) {
        true => shapes::tiny(random),
        false => {
            let options = random.below(8);
            shapes::option_book(random, options)
        }
    }
}

/// No options, no rules of the first book, none of the second, or all options of one or both paired.
fn bare(random: &mut Random, turn: usize) -> ([Book; 2], Vec<u8>) {
    match turn % 4 {
        0 => {
            let rules = [(); 2].map(|()| vec![Rule::default(); random.below(3)]);
            (rules.map(|rules| Book { options: 0, rules }), Vec::new())
        }
        3 => {
            let most = random.between(1, 6);
            let options = [[most, most], [most, most + 1], [most + 1, most]][turn / 4 % 3];
            let books = options.map(|options| shapes::option_book(random, options));
            (books, good_pairs(random, options, most).concat())
        }
        bare => {
            let mut books = [(); 2].map(|()| small(random));
            books[bare - 1].rules.clear();
            paired(books, random)
        }
    }
}

/// A book like a plant's or, in every second turn, one near the hardest ratio.
fn large(random: &mut Random, turn: usize) -> Book {
    match turn.is_multiple_of(2) {
        true => {
            let options = random.between(6, 40);
            shapes::option_book(random, options)
        }
        false => {
            let options = random.between(8, 24);
            shapes::three_entries(random, options)
        }
    }
}

/// A book with options to pair, two at least and so many at most.
fn for_pairs(random: &mut Random, most: usize) -> Book {
    let options = match random.below(4) {
        0 => most,
        1 => random.between(40, most),
        _ => random.between(2, 20),
    };
    shapes::option_book(random, options)
}

/// The books with pairs that are good: none, one, some, or all options of the smaller book.
fn paired(books: [Book; 2], random: &mut Random) -> ([Book; 2], Vec<u8>) {
    let most = books[0].options.min(books[1].options);
    let count = match random.below(6) {
        0 | 1 => 0,
        2 => most,
        3 => most.min(1),
        _ => random.between(0, most),
    };
    let pairs = good_pairs(random, sizes(&books), count);
    (books, pairs.concat())
}

/// So many pairs, ascending, descending or in any order.
fn good_pairs(random: &mut Random, [first, second]: [usize; 2], count: usize) -> Pairs {
    let [first, second] = [first, second].map(|options| distinct(random, options, count));
    let pairs = first.iter().zip(&second).map(|(a, b)| [*a as u8 + 1, *b as u8 + 1]);
    let mut pairs: Pairs = pairs.collect();
    match random.below(4) {
        0 => pairs.sort(),
        1 => pairs.sort_by(|left, right| right.cmp(left)),
        _ => (),
    }
    pairs
}

/// Pairs that are good but for one fault. Both books have two options at least.
fn bad_pairs(random: &mut Random, options: [usize; 2], fault: Fault) -> Vec<u8> {
    let count = random.between(2, options[0].min(options[1]));
    let mut pairs = good_pairs(random, options, count);
    let other = pairs[random.below(count - 1)];
    let bad = &mut pairs[count - 1];
    match fault {
        Fault::Odd => (),
        Fault::Zero(side) => bad[side] = 0,
        Fault::Next(side) => bad[side] = options[side] as u8 + 1,
        Fault::Later(side) => bad[side] = later(random, options[side]),
        Fault::Again(side) => bad[side] = other[side],
        Fault::Twice => *bad = other,
    }
    random.shuffle(&mut pairs);
    let mut bytes = pairs.concat();
    if fault == Fault::Odd {
        bytes.pop();
    }
    bytes
}

/// An option above n, mostly above n + 1: one that has a good one's lowest bits, or the highest of all.
fn later(random: &mut Random, options: usize) -> u8 {
    let good = random.between(1, options);
    [64 + good, 128 + good, 255][random.below(3)] as u8
}

/// Two books with pairs, whose joint book has 63, 64 or 65 options, or more.
fn around_options(random: &mut Random, turn: usize) -> ([Book; 2], Vec<u8>) {
    let all = match turn % 4 {
        3 => random.between(OPTIONS + 2, 2 * OPTIONS),
        near => OPTIONS - 1 + near,
    };
    let most = all.min(OPTIONS);
    let first = random.between(all - most, most);
    let second = random.between(all - first, most);
    let pairs = good_pairs(random, [first, second], first + second - all);
    ([first, second].map(|options| shapes::option_book(random, options)), pairs.concat())
}

/// Two books with pairs, whose joint book has 1,023, 1,024 or 1,025 rules, or more.
fn around_rules(random: &mut Random, turn: usize) -> ([Book; 2], Vec<u8>) {
    let all = match turn % 4 {
        3 => random.between(RULES + 2, 2 * RULES),
        near => RULES - 1 + near,
    };
    let most = all.min(RULES);
    let first = random.between(all - most, most);
    let options = random.between(24, OPTIONS / 2);
    paired([first, all - first].map(|rules| shapes::sized(random, options, rules)), random)
}

/// The first book, the second, or both, with another number, are refused.
fn refused(random: &mut Random, books: [Book; 2], turn: usize) -> [Vec<u8>; 2] {
    let (number, other) = (1 + turn % 6, 1 + (turn + random.between(1, 5)) % 6);
    let numbers = match turn / 6 % 3 {
        0 => [Some(number), None],
        1 => [None, Some(number)],
        _ => [Some(number), Some(other)],
    };
    let mut bytes = books.iter().zip(numbers).map(|(book, number)| match number {
        Some(number) => refused_bytes(random, book, number),
        None => book_bytes(book),
    });
    [(); 2].map(|()| bytes.next().expect("there are two books"))
}

/// Room for a joint book of so many bytes: in one of four cases too little.
fn some_room(random: &mut Random, exact: usize) -> usize {
    match random.below(16) {
        0 | 1 => exact - 1,
        2 => 0,
        3 => random.below(exact),
        _ => enough(random, exact),
    }
}

/// Just enough room, or more.
fn enough(random: &mut Random, exact: usize) -> usize {
    match random.below(4) {
        0 | 1 => exact,
        2 => exact + 1,
        _ => exact + random.between(2, 400),
    }
}

#[cfg(test)]
mod tests {
    use super::*;

    #[test]
    fn a_seed_gives_the_same_joins_and_another_gives_others() {
        let told = |seed| (0..60).map(|i| join(seed, i).told()).collect::<Vec<_>>();
        assert_eq!(told(1), told(1));
        assert_ne!(told(1), told(2));
    }

    #[test]
    fn each_fault_of_pairs_is_refused() {
        let mut random = Random::new(3);
        for turn in 0..160 {
            let books = [(); 2].map(|()| for_pairs(&mut random, OPTIONS));
            let pairs = bad_pairs(&mut random, sizes(&books), FAULTS[turn % FAULTS.len()]);
            let [first, second] = books.map(|book| book_bytes(&book));
            assert_eq!(port::join(&first, &second, &pairs, 1 << 20), Err(22));
        }
    }

    #[test]
    fn joint_books_around_the_limits_are_refused_above_them() {
        let mut random = Random::new(4);
        for turn in 0..80 {
            for around in [around_options, around_rules] {
                let (books, pairs) = around(&mut random, turn);
                let [first, second] = books.map(|book| book_bytes(&book));
                let joined = port::join(&first, &second, &pairs, 1 << 20);
                assert_eq!(joined.err(), [None, None, Some(23), Some(23)][turn % 4]);
            }
        }
    }
}
