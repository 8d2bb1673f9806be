//! Sites that share one allowance: 1 to 8 of them send orders against one book, each with tables of its
//! own, and are served in order. Each has its part of the allowance, and what those before it left unused.

use crate::outcome::Outcome;
use crate::request::{check, Order, Places, Request};
use std::ops::RangeInclusive;

/// So many sites are served.
const SITES: RangeInclusive<usize> = 1..=8;

/// A site's order, and the lengths of its lent tables.
#[derive(Clone, Copy, Debug)]
pub struct Site {
    pub order: Order,
    pub places: Places,
}

/// A book's bytes, the sites in their sequence, and the branching allowance of all of them.
#[derive(Clone, Copy, Debug)]
pub struct Sites<'a> {
    pub book: &'a [u8],
    pub sites: &'a [Site],
    pub allowance: u32,
}

/// A site that was served: the branchings that it might use, and its outcome.
#[derive(Clone, Debug, PartialEq, Eq)]
pub struct Served {
    pub allowance: u32,
    pub outcome: Outcome,
}

/// The sites that were served, in turn, or refusal 21 of all of them, which comes before everything else.
pub fn sites(question: &Sites) -> Result<Vec<Served>, u32> {
    let Sites { book, sites, allowance: whole } = *question;
    if !SITES.contains(&sites.len()) {
        return Err(21);
    }
    let number = sites.len() as u32;
    let part = whole / number;
    // What remains of the division goes to the first site, as if it had been left unused before it.
    let mut unused = whole % number;
    let mut served = Vec::new();
    for &Site { order, places } in sites {
        let allowance = part + unused;
        let outcome = check(&Request { book, order, places, allowance });
        unused = allowance - outcome.branchings;
        served.push(Served { allowance, outcome });
    }
    Ok(served)
}

#[cfg(test)]
mod tests {
    use super::*;

    /// The wanted, the unwanted and the standard word.
    type Words = (u64, u64, u64);

    /// n 1, the rules "1" and "not 1": one branching and one derived rule.
    const PAIR: (u8, &[(u64, u64)]) = (1, &[(1, 0), (0, 1)]);
    /// n 1, the rule "not 1": with 1 wanted it takes one branching and one derived rule, and else
    /// neither.
    const NOT_ONE: (u8, &[(u64, u64)]) = (1, &[(0, 1)]);
    /// The book W of docs/STEPS.md: three branchings and three derived rules.
    const W: (u8, &[(u64, u64)]) = (2, &[(3, 0), (2, 1), (1, 2), (0, 3)]);

    const NONE: Words = (0, 0, 0);
    const ONE: Words = (1, 0, 0);
    /// Above the options of these books, which is refused.
    const ABOVE: Words = (4, 0, 0);

    const PLACES: Places = Places { derived: [3, 3], records: [64, 65, 70] };

    fn bytes((n, rules): (u8, &[(u64, u64)])) -> Vec<u8> {
        let mut out = vec![n, rules.len() as u8, 0];
        rules.iter().for_each(|rule| out.extend(rule.0.to_le_bytes()));
        rules.iter().for_each(|rule| out.extend(rule.1.to_le_bytes()));
        out
    }

    fn of_bytes(book: &[u8], list: &[(Words, Places)], allowance: u32) -> Result<Vec<Served>, u32> {
        let site = |&((wanted, unwanted, standard), places)| Site {
            order: Order { wanted, unwanted, standard },
            places,
        };
        let list: Vec<Site> = list.iter().map(site).collect();
        sites(&Sites { book, sites: &list, allowance })
    }

    /// Each site's allowance and the first line of its outcome.
    fn told(
        book: (u8, &[(u64, u64)]),
        list: &[(Words, Places)],
        allowance: u32,
    ) -> Vec<(u32, String)> {
        let served = of_bytes(&bytes(book), list, allowance).unwrap();
        let first = |served: &Served| {
            let text = served.outcome.to_string();
            (served.allowance, text.lines().next().unwrap().to_string())
        };
        served.iter().map(first).collect()
    }

    /// The same, all sites with the same tables.
    fn of_orders(
        book: (u8, &[(u64, u64)]),
        orders: &[Words],
        allowance: u32,
    ) -> Vec<(u32, String)> {
        let list: Vec<_> = orders.iter().map(|&words| (words, PLACES)).collect();
        told(book, &list, allowance)
    }

    fn due(list: &[(u32, &str)]) -> Vec<(u32, String)> {
        list.iter().map(|&(allowance, line)| (allowance, line.to_string())).collect()
    }

    /// Of 8 branchings for three sites the part is 2, and 2 remain: the first has 4 and leaves 1, the
    /// second has 3 and leaves none, and the third has 2 alone.
    #[test]
    fn the_remainder_goes_to_the_first_and_what_is_unused_to_the_next() {
        let told = of_orders(W, &[NONE; 3], 8);
        assert_eq!([told[0].0, told[1].0, told[2].0], [4, 3, 2]);
        assert_eq!(told[..2], due(&[(4, "cannot 0 3 3 1"), (3, "cannot 0 3 3 1")]));
        assert!(told[2].1.starts_with("stopped 10 2 "), "{}", told[2].1);
    }

    #[test]
    fn the_example_of_the_format() {
        let of = |allowance| of_orders(W, &[NONE, ABOVE, NONE], allowance);
        let (cannot, seven) = ("cannot 0 3 3 1", "refused 7 0 0 0");
        assert_eq!(of(8), due(&[(4, cannot), (3, seven), (5, cannot)]));
        assert_eq!(of(7), due(&[(3, cannot), (2, seven), (4, cannot)]));
        assert_eq!(of(5)[..2], due(&[(3, cannot), (1, seven)]));
        assert_eq!(of(5)[2].0, 2);
        assert!(of(5)[2].1.starts_with("stopped 10 2 "), "{}", of(5)[2].1);
    }

    /// What two sites leave goes past the second of them.
    #[test]
    fn what_is_unused_goes_on_to_the_last() {
        let can = "can 0 0 0 1";
        let told = of_orders(NOT_ONE, &[NONE, NONE, ONE, ONE], 1);
        let cannot = (1, "cannot 0 1 1 1");
        assert_eq!(told, due(&[(1, can), (1, can), cannot, (0, "stopped 10 0 0 0")]));
        let told = of_orders(NOT_ONE, &[NONE, ONE, NONE, ONE], 9);
        assert_eq!(told, due(&[(3, can), (5, "cannot 0 1 1 1"), (6, can), (8, "cannot 0 1 1 1")]));
    }

    #[test]
    fn each_site_has_its_part_though_all_others_stop() {
        let told = of_orders(W, &[NONE; 4], 8);
        assert!(told
            .iter()
            .all(|(allowance, line)| *allowance == 2 && line.starts_with("stopped 10 2 ")));
        let told = of_orders(W, &[NONE, NONE, NONE, ABOVE, NONE], 10);
        let allowances: Vec<u32> = told.iter().map(|(allowance, _)| *allowance).collect();
        assert_eq!(allowances, [2, 2, 2, 2, 4]);
        assert_eq!(told[4].1, "cannot 0 3 3 1");
    }

    #[test]
    fn all_the_allowance_of_a_refused_site_passes_on() {
        let short = Places { derived: [3, 3], records: [64, 63, 64] };
        let list = [(ABOVE, PLACES), (NONE, short), ((1, 1, 0), PLACES), ((0, 0, 4), PLACES)];
        let told = told(W, &[&list[..], &[(NONE, PLACES)]].concat(), 3);
        let refused = ["refused 7 0 0 0", "refused 9 0 0 0", "refused 8 0 0 0", "refused 12 0 0 0"];
        assert_eq!(told[..4], due(&refused.map(|line| (3, line))));
        assert_eq!(told[4..], due(&[(3, "cannot 0 3 3 1")]));
    }

    #[test]
    fn each_site_has_tables_of_its_own() {
        let with = |derived| Places { derived, records: [64; 3] };
        let list = [with([0, 0]), with([1, 1]), with([1, 2]), with([2048, 2048])];
        let told = told(PAIR, &list.map(|places| (NONE, places)), 8);
        let lines = ["stopped 11 1 0 0", "cannot 0 1 1 1", "refused 9 0 0 0", "cannot 0 1 1 1"];
        let allowances = [2, 3, 4, 6];
        let due: Vec<_> = allowances.into_iter().zip(lines.map(str::to_string)).collect();
        assert_eq!(told, due);
    }

    /// The whole is shared to the last branching, and no further.
    #[test]
    fn the_sum_of_the_branchings_is_the_whole_at_most() {
        let sum = |sites: usize, allowance: u32| -> u32 {
            let list = vec![(NONE, PLACES); sites];
            let served = of_bytes(&bytes(W), &list, allowance).unwrap();
            served.iter().map(|served| served.outcome.branchings).sum()
        };
        for sites in 1..=8 {
            for allowance in 0..=3 * sites as u32 {
                assert!(sum(sites, allowance) <= allowance, "{sites} sites, {allowance}");
            }
            assert_eq!(sum(sites, 3 * sites as u32), 3 * sites as u32);
            assert_eq!(sum(sites, u32::MAX), 3 * sites as u32);
        }
    }

    /// 2^32 - 1 is 8 times 536870911 and 7.
    #[test]
    fn the_largest_allowance_is_shared() {
        let told = of_orders(PAIR, &[NONE; 8], u32::MAX);
        let allowances: Vec<u32> = told.iter().map(|(allowance, _)| *allowance).collect();
        assert_eq!(allowances[..3], [536_870_918, 1_073_741_828, 1_610_612_738]);
        assert_eq!(allowances[7], u32::MAX - 7);
    }

    #[test]
    fn a_bad_book_answers_every_site() {
        let list = [(NONE, PLACES), (ABOVE, Places::equal(0, 0))];
        let served = of_bytes(&[2, 0], &list, 5).unwrap();
        let outcomes: Vec<_> = served.iter().map(|served| served.outcome.to_string()).collect();
        assert_eq!(outcomes, ["refused 1 0 0 0\n"; 2]);
        assert_eq!([served[0].allowance, served[1].allowance], [3, 5]);
    }

    #[test]
    fn the_number_of_sites_is_judged_before_everything() {
        let of = |book: &[u8], sites: usize| {
            of_bytes(book, &vec![(NONE, PLACES); sites], 8).map(|served| served.len())
        };
        let book = bytes(PAIR);
        assert_eq!([of(&book, 0), of(&book, 9), of(&book, 40)], [Err(21); 3]);
        assert_eq!([of(&[], 0), of(&[], 9)], [Err(21); 2]);
        assert_eq!([of(&book, 1), of(&book, 8), of(&[], 8)], [Ok(1), Ok(8), Ok(8)]);
    }
}
