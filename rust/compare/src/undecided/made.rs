//! Generated orders with open options. Question number i of a seed is the same wherever it is made.

use crate::kinds::{wishes_and_book, Kind};
use crate::orders::{above, contradictory, standard_above, with_standard};
use crate::question::Open;
use crate::random::Random;
use crate::refused::refused_bytes;
use crate::shapes;
use optbook::bytes::book_bytes;
use optbook::{first, option, Order, OPTIONS};
use port::{Outcome, Places};

/// What is open: so many options, more than may be, one above n, or one that is also wanted or
/// unwanted.
#[derive(Clone, Copy, Debug, PartialEq, Eq)]
enum Sort {
    None,
    One,
    Few,
    Several,
    Ten,
    TooMany,
    Above,
    Wished,
}

/// The sorts, in turn.
const TURNS: [Sort; 23] = [
    Sort::Few,
    Sort::One,
    Sort::Few,
    Sort::Wished,
    Sort::Few,
    Sort::None,
    Sort::Several,
    Sort::Few,
    Sort::One,
    Sort::Few,
    Sort::Above,
    Sort::Few,
    Sort::One,
    Sort::TooMany,
    Sort::Few,
    Sort::Several,
    Sort::Few,
    Sort::One,
    Sort::Few,
    Sort::Wished,
    Sort::Few,
    Sort::Several,
    Sort::Few,
];

/// One in so many questions has ten open options.
const ONE_TEN: usize = 40;

/// The kinds of books with few open options, in turn.
const KINDS: [Kind; 5] =
    [Kind::Tiny, Kind::OptionBook, Kind::Tiny, Kind::ThreeEntries, Kind::AllRules];

/// One in so many questions has a book that is refused, with 1 to 6 in turn.
const ONE_REFUSED: usize = 12;

/// Limits with which it is seen what a setting needs.
const AMPLE: u32 = 100;
const MOST_PLACES: usize = 2048;
const RECORDS: usize = 64;

/// The question with this number, counted from 0.
pub fn open(seed: u64, number: usize) -> Open {
    let mut random = Random::new(seed ^ (number as u64).wrapping_mul(0x8ebc_6af0_9c88_c6e3));
    let sort = match number % ONE_TEN == ONE_TEN - 1 {
        true => Sort::Ten,
        false => TURNS[number % TURNS.len()],
    };
    let (options, book) = book(&mut random, number, sort);
    let open = open_options(&mut random, sort, options);
    let order = order(&mut random, sort, open, options);
    let places = Places::equal(MOST_PLACES, RECORDS);
    limited(&mut random, Open { book, order, open, places, allowance: AMPLE })
}

/// The options and the bytes of a book, which is refused in one of so many cases.
fn book(random: &mut Random, number: usize, sort: Sort) -> (usize, Vec<u8>) {
    if number % ONE_REFUSED == ONE_REFUSED / 2 {
        let (_, book) = wishes_and_book(random, Kind::AboveN);
        return (book.options, refused_bytes(random, &book, 1 + number / ONE_REFUSED % 6));
    }
    let book = match sort {
        Sort::None | Sort::One | Sort::Few | Sort::Wished => {
            wishes_and_book(random, KINDS[number % KINDS.len()]).1
        }
        Sort::Several | Sort::Ten | Sort::TooMany => {
            let options = random.between(11, 20);
            shapes::option_book(random, options)
        }
        Sort::Above => wishes_and_book(random, Kind::AboveN).1,
    };
    (book.options, book_bytes(&book))
}

/// The open options of this sort in a book of so many, or all where there are fewer.
fn open_options(random: &mut Random, sort: Sort, options: usize) -> u64 {
    let (least, most) = match sort {
        Sort::None => (0, 0),
        Sort::One => (1, 1),
        Sort::Few | Sort::Wished => (2, 4),
        Sort::Several => (5, 9),
        Sort::Ten => (10, 10),
        Sort::TooMany => (11, options.max(11)),
        Sort::Above => (0, 3),
    };
    let count = random.between(least, most);
    let open = shapes::union(&shapes::distinct(random, options, count));
    match sort == Sort::Above && options < OPTIONS {
        true => open | option(random.between(options, OPTIONS - 1)),
        false => open,
    }
}

/// An order for a book of so many options: no open option is wanted or unwanted, but where the sort
/// says so, and sometimes where the open options are refused anyway. Open options are often standard.
/// One in eight orders is refused.
fn order(random: &mut Random, sort: Sort, open: u64, options: usize) -> Order {
    let one_of = random.between(2, 12);
    let wishes = shapes::order(random, options, one_of);
    let mut order = with_standard(random, wishes, options);
    let of_book = open & first(options);
    if random.chance(1, 2) {
        order.standard |= of_book & random.word();
    }
    order.wanted &= !open;
    order.unwanted &= !open;
    let is_wished = match sort {
        Sort::Wished => true,
        Sort::TooMany | Sort::Above => random.chance(1, 2),
        _ => false,
    };
    if is_wished {
        let wished = of_book & random.word();
        let wished = if wished == 0 { of_book } else { wished };
        match random.chance(1, 2) {
            true => order.wanted |= wished,
            false => order.unwanted |= wished,
        }
    }
    if !(1..OPTIONS).contains(&options) {
        return order;
    }
    match random.below(24) {
        0 => above(random, order, options),
        1 => contradictory(random, order, options),
        2 => standard_above(random, order, options),
        _ => order,
    }
}

/// The question with limits that are ample, or around what its settings need, or with lengths of the
/// tables that are refused.
fn limited(random: &mut Random, question: Open) -> Open {
    let needed = needed(&question);
    let branchings: Vec<usize> = needed.iter().map(|outcome| outcome.branchings as usize).collect();
    let derived: Vec<usize> = needed.iter().map(|outcome| outcome.derived.len()).collect();
    let (of_branchings, of_places) = match random.below(7) {
        0 | 1 => (true, false),
        2 | 3 => (false, true),
        4 => (true, true),
        _ => (false, false),
    };
    let allowance = match of_branchings {
        true => limit(random, &branchings) as u32,
        false => AMPLE,
    };
    let places = match of_places {
        true => limit(random, &derived),
        false => MOST_PLACES,
    };
    Open { places: places_of(random, places), allowance, ..question }
}

/// What each setting needs; nothing where there are too many.
fn needed(question: &Open) -> Vec<Outcome> {
    match question.open.count_ones() {
        0..=10 => {
            let settings = question.settings().into_iter();
            settings.map(|setting| question.singly(setting).port_outcome()).collect()
        }
        _ => Vec::new(),
    }
}

/// A limit for settings that need so much each: mostly one less than a later setting needs and enough
/// for all before it, or just enough for all, or too little for the first, or next to nothing.
fn limit(random: &mut Random, needed: &[usize]) -> usize {
    let later = later_stops(needed);
    match random.below(6) {
        0 => needed.iter().max().copied().unwrap_or(0),
        1 => needed.first().map_or(0, |first| first.saturating_sub(1)),
        2 => random.below(4),
        _ if later.is_empty() => needed.iter().max().copied().unwrap_or(0),
        _ => later[random.below(later.len())],
    }
}

/// For each setting but the first that needs more than all before it, one less than it needs.
fn later_stops(needed: &[usize]) -> Vec<usize> {
    let mut limits = Vec::new();
    let mut most = needed.first().copied().unwrap_or(0);
    for &need in needed {
        if need > most {
            limits.push(need - 1);
            most = need;
        }
    }
    limits
}

/// Lengths of the tables with this many places for derived rules. Tables for records are often longer
/// than need be. Some lengths are refused.
fn places_of(random: &mut Random, places: usize) -> Places {
    let mut derived = [places; 2];
    let mut records = [RECORDS; 3];
    if random.chance(1, 2) {
        records = records.map(|length| length + random.below(40));
    }
    match random.below(30) {
        0 => derived[0] += 1,
        1 => derived[1] += random.between(1, 20),
        2 => derived = [MOST_PLACES + 1; 2],
        3 => records[random.below(3)] = random.below(RECORDS),
        _ => (),
    }
    Places { derived, records }
}

#[cfg(test)]
mod tests {
    use super::*;
    use port::{Ending, Verdict};
    use std::sync::LazyLock;

    static QUESTIONS: LazyLock<Vec<Open>> =
        LazyLock::new(|| (0..800).map(|number| open(5, number)).collect());

    /// There are at least so many questions of this kind.
    fn come(least: usize, is_such: impl Fn(&Open) -> bool) -> bool {
        QUESTIONS.iter().filter(|open| is_such(open)).count() >= least
    }

    /// The number of options of the book, as its first byte says; none where there is no byte.
    fn options(open: &Open) -> usize {
        usize::from(*open.book.first().unwrap_or(&0))
    }

    fn is_above(open: &Open) -> bool {
        open.open & !first(options(open)) != 0
    }

    fn is_wished(open: &Open) -> bool {
        open.open & (open.order.wanted | open.order.unwanted) != 0
    }

    fn number(open: &Open) -> Option<u32> {
        open.port_tried().err()
    }

    fn has_bad_lengths(open: &Open) -> bool {
        let Places { derived: [pos, neg], records } = open.places;
        pos != neg || pos > MOST_PLACES || records.into_iter().any(|length| length < RECORDS)
    }

    #[test]
    fn a_seed_gives_the_same_questions_and_another_gives_others() {
        let told = |seed| (0..40).map(|i| open(seed, i).told()).collect::<Vec<_>>();
        assert_eq!(told(1), told(1));
        assert_ne!(told(1), told(2));
    }

    #[test]
    fn every_number_of_open_options_up_to_eleven_comes() {
        for count in 0..=11 {
            assert!(come(2, |open| open.open.count_ones() == count), "{count} open options");
        }
        assert!(come(10, |open| open.open.count_ones() == 10 && open.port_tried().is_ok()));
    }

    #[test]
    fn open_options_are_standard_and_the_settings_still_tried() {
        assert!(come(100, |open| open.open & open.order.standard != 0 && number(open).is_none()));
    }

    #[test]
    fn each_refusal_comes_with_the_conditions_of_those_after_it() {
        let is_nineteen = |open: &Open| open.open.count_ones() > 10 || is_above(open);
        let of = |due: u32| move |open: &Open| number(open) == Some(due);
        for due in [1, 2, 3, 4, 5, 6, 7, 8, 9, 12, 19, 20] {
            assert!(come(2, of(due)), "{due}");
        }
        assert!(come(1, |open| of(12)(open) && is_nineteen(open)));
        assert!(come(5, |open| of(19)(open) && is_above(open)));
        assert!(come(5, |open| of(19)(open) && !is_above(open)));
        assert!(come(5, |open| of(19)(open) && is_wished(open)));
        assert!(come(2, |open| of(19)(open) && has_bad_lengths(open)));
        assert!(come(2, |open| of(20)(open) && has_bad_lengths(open)));
    }

    #[test]
    fn some_settings_stop_after_others_did_not() {
        for due in [10, 11] {
            let is_such = |open: &Open| match open.port_tried() {
                Ok(tried) => tried.last.ending == Ending::Stopped(due) && tried.setting != 0,
                Err(_) => false,
            };
            assert!(come(20, is_such), "stop {due}");
        }
    }

    #[test]
    fn every_verdict_comes_with_longer_record_tables() {
        for due in [Verdict::Always, Verdict::Sometimes, Verdict::Never, Verdict::Stopped] {
            let is_such = |open: &Open| {
                let is_long = open.places.records.into_iter().all(|length| length > RECORDS);
                is_long && open.port_tried().is_ok_and(|tried| tried.verdict == due)
            };
            assert!(come(10, is_such), "{due:?}");
        }
    }

    #[test]
    fn a_later_stop_is_one_less_than_a_setting_needs_that_needs_most_so_far() {
        assert_eq!(later_stops(&[3, 2, 5, 5, 4, 9]), [4, 8]);
        assert_eq!(later_stops(&[3, 3, 0]), []);
        assert_eq!(later_stops(&[]), []);
    }
}
