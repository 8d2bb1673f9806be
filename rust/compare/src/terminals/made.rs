//! Generated lists of sites. List number i of a seed is the same wherever it is made, and so is the other
//! list that goes with it.

use crate::kinds::{wishes_and_book, Kind};
use crate::orders::some_order;
use crate::question::{Site, Sites};
use crate::random::Random;
use crate::refused::refused_bytes;
use crate::shapes;
use optbook::bytes::book_bytes;
use optbook::{first, Order};
use port::{Ending, Outcome, Places};
use std::ops::RangeInclusive;

/// The kinds of books, in turn.
const KINDS: [Kind; 5] =
    [Kind::Tiny, Kind::OptionBook, Kind::AllRules, Kind::ThreeEntries, Kind::Tiny];

/// The numbers of sites that are served, and those that are refused. One in so many lists has one of the
/// latter, in turn.
const SERVED: RangeInclusive<usize> = 1..=8;
const NOT_SERVED: [usize; 4] = [0, 9, 10, 20];
const ONE_NOT_SERVED: usize = 16;

/// One in so many lists that are served has a book that is refused, with 1 to 6 in turn.
const ONE_REFUSED: usize = 12;

/// One in so many lists has one site that needs just its part, and others that need more and stop.
const ONE_SCARCE: usize = 25;

/// Limits with which it is seen what a site needs.
const AMPLE: u32 = 300;
const MOST_PLACES: usize = 2048;
const RECORDS: usize = 64;

/// The list with this number, counted from 0.
pub fn sites(seed: u64, number: usize) -> Sites {
    let mut random = Random::new(seed ^ (number as u64).wrapping_mul(0xe703_7ed1_a0b4_28db));
    let count = match number % ONE_NOT_SERVED == ONE_NOT_SERVED - 1 {
        true => NOT_SERVED[number / ONE_NOT_SERVED % NOT_SERVED.len()],
        false => random.between(*SERVED.start(), *SERVED.end()),
    };
    if SERVED.contains(&count) && number % ONE_SCARCE == ONE_SCARCE / 2 {
        return scarce(&mut random, count.max(2));
    }
    let (options, book) = book(&mut random, number, count);
    let mut list = Sites { book, sites: Vec::new(), allowance: AMPLE };
    for _ in 0..count {
        let site = site(&mut random, &list, options);
        list.sites.push(site);
    }
    list.allowance = allowance(&mut random, &list);
    list
}

/// The options and the bytes of a book for so many sites. Where their number is refused, so is the book in
/// half of the cases, which then plays no part.
fn book(random: &mut Random, number: usize, count: usize) -> (usize, Vec<u8>) {
    let refusal = match SERVED.contains(&count) {
        true if number % ONE_REFUSED == ONE_REFUSED / 2 => Some(1 + number / ONE_REFUSED % 6),
        false if random.chance(1, 2) => Some(random.between(1, 6)),
        _ => None,
    };
    match refusal {
        Some(refusal) => {
            let (_, book) = wishes_and_book(random, Kind::AboveN);
            (book.options, refused_bytes(random, &book, refusal))
        }
        None => {
            let (_, book) = wishes_and_book(random, KINDS[number % KINDS.len()]);
            (book.options, book_bytes(&book))
        }
    }
}

/// A site after those of a list: its order may be one of theirs, and its tables have places that are
/// enough, or too few, or ample, or lengths that are refused.
fn site(random: &mut Random, list: &Sites, options: usize) -> Site {
    let order = match !list.sites.is_empty() && random.chance(1, 6) {
        true => list.sites[random.below(list.sites.len())].order,
        false => some_order(random, options),
    };
    let ample = Site { order, places: Places::equal(MOST_PLACES, RECORDS) };
    let needed = match random.chance(1, 2) {
        true => needed(list, ample).derived.len(),
        false => MOST_PLACES,
    };
    let places = match random.below(4) {
        0 => needed.saturating_sub(1),
        1 => needed / 2,
        _ => needed,
    };
    Site { order, places: lengths(random, places) }
}

/// So many sites on a book of all rules, one of which has wishes for all options, and so needs the fewest
/// branchings. The part is what it needs.
fn scarce(random: &mut Random, count: usize) -> Sites {
    let book = shapes::all_rules(random.between(2, 4));
    let wanted = random.word() & first(book.options);
    let wishes = Order { wanted, unwanted: first(book.options) & !wanted, standard: 0 };
    let places = Places::equal(MOST_PLACES, RECORDS + random.below(9));
    let mut sites = vec![Site { order: Order::default(), places }; count];
    let with_wishes = Site { order: wishes, places };
    sites[random.below(count)] = with_wishes;
    let list = Sites { book: book_bytes(&book), sites, allowance: AMPLE };
    Sites { allowance: count as u32 * needed(&list, with_wishes).branchings, ..list }
}

/// What a site needs of the book of a list, asked singly.
fn needed(list: &Sites, site: Site) -> Outcome {
    Sites { sites: vec![site], ..list.clone() }.singly(0, AMPLE).port_outcome()
}

/// Lengths of tables with this many places for derived rules. Tables for records are often longer than
/// need be. Some lengths are refused.
fn lengths(random: &mut Random, places: usize) -> Places {
    let mut derived = [places; 2];
    let mut records = [RECORDS; 3];
    if random.chance(1, 2) {
        records = records.map(|length| length + random.below(40));
    }
    match random.below(30) {
        0 => derived[0] += 1,
        1 => derived[1] += random.between(1, 20),
        2 => derived = [MOST_PLACES + 1; 2],
        3 => records[random.below(3)] = random.below(RECORDS),
        _ => (),
    }
    Places { derived, records }
}

/// An allowance for the sites of a list: none, fewer branchings than sites, as many as they need together
/// or fewer, such that the part is just enough for one of them or one branching short, ample, or nearly the
/// most that there may be.
fn allowance(random: &mut Random, list: &Sites) -> u32 {
    let outcomes: Vec<Outcome> = list.sites.iter().map(|&site| needed(list, site)).collect();
    let count = outcomes.len() as u32;
    let needs = outcomes.iter().map(|outcome| outcome.branchings);
    let needs: Vec<u32> = needs.filter(|&need| need > 0).collect();
    let mut below = |bound: u32| random.below(bound as usize) as u32;
    let is_short = outcomes.iter().all(|outcome| outcome.ending != Ending::Stopped(10));
    match below(16) {
        0 => return 0,
        1 => return below(1 + count),
        2 if is_short => return u32::MAX - below(1 + count),
        3 => return count * AMPLE,
        _ if needs.is_empty() => return below(1 + 4 * count),
        _ => (),
    }
    let (one, sum) = (needs[below(needs.len() as u32) as usize], needs.iter().sum::<u32>());
    let least = needs.into_iter().min().unwrap_or(0);
    match below(8) {
        0 => sum,
        1 => sum - 1,
        2 => below(sum),
        3 => sum + below(count),
        4 => count * (one - 1) + below(count),
        5 => count * one + below(count),
        6 => count * least,
        _ => count * (one - 1),
    }
}

/// Another list of the same length, book and allowance as one that is served, and the index of a site that
/// both have: those before it come in another order, of which one that uses nothing is refused, and all
/// after it are others.
pub fn other(seed: u64, number: usize, list: &Sites) -> Option<(Sites, usize)> {
    if !SERVED.contains(&list.sites.len()) {
        return None;
    }
    let mut random = Random::new(!seed ^ (number as u64).wrapping_mul(0xe703_7ed1_a0b4_28db));
    let at = random.below(list.sites.len());
    let mut before = list.sites[..at].to_vec();
    before.rotate_left(usize::from(at > 1));
    if let Some(idle) = before.iter_mut().find(|site| needed(list, **site).branchings == 0) {
        idle.places.records[1] = RECORDS - 1;
    }
    let mut sites = [&before[..], &[list.sites[at]]].concat();
    for site in &list.sites[at + 1..] {
        let places = lengths(&mut random, site.places.derived[0] / 2 + 1);
        sites.push(Site { order: list.sites[at].order, places });
    }
    Some((Sites { sites, ..list.clone() }, at))
}

#[cfg(test)]
mod tests {
    use super::*;
    use port::Served;
    use std::sync::LazyLock;

    static LISTS: LazyLock<Vec<Sites>> =
        LazyLock::new(|| (0..800).map(|number| sites(5, number)).collect());

    /// There are at least so many lists of this kind.
    fn come(least: usize, is_such: impl Fn(&Sites) -> bool) -> bool {
        LISTS.iter().filter(|list| is_such(list)).count() >= least
    }

    /// The sites that were served; none where the list is refused.
    fn served(list: &Sites) -> Vec<Served> {
        list.port_served().unwrap_or_default()
    }

    #[test]
    fn a_seed_gives_the_same_lists_and_another_gives_others() {
        let told = |seed| {
            let list = |number| {
                let list = sites(seed, number);
                let other = other(seed, number, &list).map(|(other, at)| (other.told(), at));
                (list.told(), other)
            };
            (0..40).map(list).collect::<Vec<_>>()
        };
        assert_eq!(told(1), told(1));
        assert_ne!(told(1), told(2));
    }

    #[test]
    fn every_number_of_sites_comes() {
        for count in (0..=10).chain([20]) {
            assert!(come(5, |list| list.sites.len() == count), "{count} sites");
        }
    }

    #[test]
    fn a_refused_number_of_sites_comes_with_every_refused_book_and_with_good_ones() {
        let of_book = |list: &Sites| {
            let site = Site { order: Order::default(), places: Places::equal(0, RECORDS) };
            match needed(list, site).ending {
                Ending::Refused(number) => number,
                _ => 0,
            }
        };
        for number in 0..=6 {
            let is_such = |list: &Sites| list.port_served().is_err() && of_book(list) == number;
            assert!(come(1, is_such), "{number}");
        }
    }

    #[test]
    fn sites_of_one_list_have_other_tables() {
        assert!(come(300, |list| {
            let lengths = |site: &Site| (site.places.derived, site.places.records);
            list.sites.windows(2).any(|two| lengths(&two[0]) != lengths(&two[1]))
        }));
    }

    /// With one branching more or fewer in all, a site answers something else.
    #[test]
    fn allowances_are_at_the_edge() {
        let answers = |list: &Sites, allowance| {
            served(&Sites { allowance, ..list.clone() })
                .into_iter()
                .map(|served| served.outcome)
                .collect::<Vec<_>>()
        };
        assert!(come(100, |list| {
            answers(list, list.allowance) != answers(list, list.allowance.saturating_sub(1))
        }));
        assert!(come(100, |list| {
            answers(list, list.allowance) != answers(list, list.allowance.saturating_add(1))
        }));
    }

    #[test]
    fn where_branchings_are_scarce_all_sites_but_one_stop() {
        let mut random = Random::new(3);
        for count in 2..=8 {
            let served = served(&scarce(&mut random, count));
            let stopped = served.iter().filter(|s| s.outcome.ending == Ending::Stopped(10)).count();
            let verdicts = served.iter().filter(|s| matches!(s.outcome.ending, Ending::Verdict(_)));
            assert_eq!((stopped, verdicts.count()), (count - 1, 1));
        }
    }

    #[test]
    fn another_list_has_the_same_site_among_others() {
        let mut seen = 0;
        for (number, list) in LISTS.iter().enumerate() {
            let Some((other, at)) = other(5, number, list) else {
                assert!(list.port_served().is_err());
                continue;
            };
            let same = (&other.book, other.allowance, other.sites.len());
            assert_eq!(same, (&list.book, list.allowance, list.sites.len()));
            let site = |list: &Sites| format!("{:?}", list.sites[at]);
            assert_eq!(site(&other), site(list));
            let sites = |list: &Sites| format!("{:?}", list.sites);
            seen +=
                usize::from(at > 0 && at + 1 < list.sites.len() && sites(&other) != sites(list));
        }
        assert!(seen > 200, "{seen}");
    }
}
