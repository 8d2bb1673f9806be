//! The comparison of sites sees each wrong reading of them.

use super::*;
use crate::question::{after_text, Check};
use crate::under_test::{Port, Program};
use port::Outcome;
use std::collections::BTreeSet;
use std::sync::LazyLock;

/// A checker made of a function for sites and one for a check. Terminals of any numbers are the port's.
struct Made {
    sites: fn(&Sites) -> Result<Vec<Outcome>, u32>,
    check: fn(&Check) -> Outcome,
}

impl UnderTest for Made {
    fn name(&self) -> String {
        "made".to_string()
    }

    fn takes(&self, question: &Question) -> bool {
        matches!(question, Question::Check(_) | Question::Sites(_) | Question::Terminal(_))
    }

    fn printed(&mut self, question: &Question) -> Result<String, String> {
        match question {
            Question::Check(check) => Ok((self.check)(check).to_string()),
            Question::Sites(sites) => Ok(in_turn(&(self.sites)(sites))),
            Question::Terminal(terminal) => Ok(after_text(&terminal.port_after())),
            _ => Err("neither a check nor sites".to_string()),
        }
    }
}

fn made(sites: fn(&Sites) -> Result<Vec<Outcome>, u32>) -> [Box<dyn UnderTest>; 1] {
    [Box::new(Made { sites, check: Check::port_outcome })]
}

/// What is told of a checker whose lists are served in this way.
fn difference(sites: fn(&Sites) -> Result<Vec<Outcome>, u32>) -> String {
    run(&mut made(sites), 3, LEAST).unwrap_err()
}

/// The parts of a list: of each site, what remains, and their number.
struct Parts {
    part: u32,
    remainder: u32,
    count: usize,
}

/// The sites in turn, each with the allowance that a function gives it: of the parts, its index, and the
/// allowances and outcomes before it.
fn by_allowances(
    list: &Sites,
    allowance: impl Fn(&Parts, usize, &[(u32, Outcome)]) -> u32,
) -> Result<Vec<Outcome>, u32> {
    list.port_served()?;
    let count = list.sites.len();
    let [part, remainder] = [list.allowance / count as u32, list.allowance % count as u32];
    let parts = Parts { part, remainder, count };
    let mut served: Vec<(u32, Outcome)> = Vec::new();
    for index in 0..count {
        let allowance = allowance(&parts, index, &served);
        served.push((allowance, list.singly(index, allowance).port_outcome()));
    }
    Ok(served.into_iter().map(|(_, outcome)| outcome).collect())
}

/// What a site has for being the first.
fn at_first(index: usize, remainder: u32) -> u32 {
    match index {
        0 => remainder,
        _ => 0,
    }
}

/// What was left unused of the last allowance.
fn rest(before: &[(u32, Outcome)]) -> u32 {
    before.last().map_or(0, |(allowance, outcome)| allowance - outcome.branchings)
}

#[test]
fn every_kind_is_seen_and_counted_whatever_the_seed_is() {
    for seed in 1..9 {
        let tally = run(&mut [Box::new(Port)], seed, beside(0)).unwrap().unwrap();
        assert_eq!(tally.lists, 400);
        let refused = tally.endings["refused 21"];
        assert_eq!(tally.endings.values().sum::<usize>(), tally.singly + refused);
        let told = tally.told();
        assert!(told.starts_with("lists of sites          400   can "), "{told}");
        let (before, after) = (tally.others_before, tally.others_after);
        let last = format!("answers of sites among others before: {before}, after: {after}\n");
        assert!(told.contains(&format!("{}\n{last}terminals at will ", tally.singly)), "{told}");
    }
}

#[test]
fn the_first_difference_is_told_with_the_sites() {
    let told = difference(|_| Err(21));
    let due =
        "sites 0 of seed 3: the answers differ: made's line 1 is `refused 21 0 0 0`, due is `";
    assert!(told.starts_with(due), "{told}");
    assert!(told.contains("\nsites\nbook ") && told.contains("\nsite "), "{told}");
}

#[test]
fn refused_lists_come_to_each_checker() {
    let sites = |list: &Sites| list.port_outcomes().map_err(|_| 13);
    for position in 0..2 {
        let mut tested: [Box<dyn UnderTest>; 2] = [Box::new(Port), Box::new(Port)];
        tested[position] = Box::new(Made { sites, check: Check::port_outcome });
        let told = run(&mut tested, 3, LEAST).unwrap_err();
        let due = ": made's line 1 is `refused 13 0 0 0`, due is `refused 21 0 0 0`";
        assert!(told.contains(due), "{told}");
    }
}

/// The allowances as they should be give no difference, so that those below come from what is changed.
#[test]
fn the_sites_one_by_one_differ_nowhere() {
    let sites = |list: &Sites| {
        by_allowances(list, |parts, index, before| {
            parts.part + at_first(index, parts.remainder) + rest(before)
        })
    };
    assert!(run(&mut made(sites), 3, LEAST).unwrap().is_some());
}

#[test]
fn a_remainder_that_is_not_the_first_sites_is_a_difference() {
    let told = [
        // It is lost, it is the last one's, and each of the first sites has one branching of it.
        difference(|list| by_allowances(list, |parts, _, before| parts.part + rest(before))),
        difference(|list| {
            by_allowances(list, |parts, index, before| {
                let from_last = parts.count - 1 - index;
                parts.part + at_first(from_last, parts.remainder) + rest(before)
            })
        }),
        difference(|list| {
            by_allowances(list, |parts, index, before| {
                parts.part + u32::from((index as u32) < parts.remainder) + rest(before)
            })
        }),
    ];
    for told in told {
        assert!(told.contains("the answers differ: "), "{told}");
    }
}

#[test]
fn what_is_left_unused_and_does_not_pass_on_is_a_difference() {
    let told = [
        // Nothing passes on, and what passes on does so to the next site alone.
        difference(|list| {
            by_allowances(list, |parts, index, _| parts.part + at_first(index, parts.remainder))
        }),
        difference(|list| {
            by_allowances(list, |parts, index, before| {
                let own = |index: usize| parts.part + at_first(index, parts.remainder);
                let unused = before
                    .last()
                    .map_or(0, |(_, outcome)| own(index - 1).saturating_sub(outcome.branchings));
                own(index) + unused
            })
        }),
    ];
    for told in told {
        assert!(told.contains("the answers differ: "), "{told}");
    }
}

#[test]
fn the_allowance_of_a_refused_site_that_is_lost_is_a_difference() {
    let told = difference(|list| {
        by_allowances(list, |parts, index, before| {
            let of_refused = match before.last() {
                Some((_, outcome)) if matches!(outcome.ending, Ending::Refused(_)) => parts.part,
                _ => 0,
            };
            parts.part + at_first(index, parts.remainder) + rest(before) - of_refused
        })
    });
    assert!(told.contains("the answers differ: "), "{told}");
}

#[test]
fn a_part_that_earlier_sites_may_use_is_a_difference() {
    let told = [
        // Each has all that is left, and each has the whole.
        difference(|list| {
            by_allowances(list, |parts, _, before| {
                let whole = parts.part * parts.count as u32 + parts.remainder;
                whole - before.iter().map(|(_, outcome)| outcome.branchings).sum::<u32>()
            })
        }),
        difference(|list| {
            by_allowances(list, |parts, _, _| parts.part * parts.count as u32 + parts.remainder)
        }),
    ];
    for told in told {
        assert!(told.contains("the answers differ: "), "{told}");
    }
}

#[test]
fn a_refused_site_that_ends_the_list_is_a_difference() {
    let told = difference(|list| {
        let mut outcomes = list.port_outcomes()?;
        let refused = outcomes.iter().position(|o| matches!(o.ending, Ending::Refused(_)));
        outcomes.truncate(refused.map_or(outcomes.len(), |index| index + 1));
        Ok(outcomes)
    });
    assert!(told.contains(" is nothing, due is `"), "{told}");
}

#[test]
fn a_number_of_sites_judged_after_the_book_is_a_difference() {
    let told = difference(|list| {
        let site = Site { order: Default::default(), places: port::Places::equal(0, 64) };
        let one = Sites { sites: vec![site], ..list.clone() };
        match (list.port_outcomes(), one.port_outcomes()?.remove(0).ending) {
            (Err(_), Ending::Refused(number)) => Err(number),
            (outcomes, _) => outcomes,
        }
    });
    assert!(told.contains("due is `refused 21 0 0 0`"), "{told}");
}

#[test]
fn an_answer_that_is_not_the_single_checks_is_a_difference() {
    let check = |check: &Check| {
        let mut outcome = check.port_outcome();
        if let Some(record) = outcome.records.last_mut() {
            record.struck ^= 1;
        }
        outcome
    };
    let mut made: [Box<dyn UnderTest>; 1] = [Box::new(Made { sites: Sites::port_outcomes, check })];
    let told = run(&mut made, 3, LEAST).unwrap_err();
    assert!(told.contains(": made's single check of site "), "{told}");
}

/// The lists that are compared with the port.
static LISTS: LazyLock<BTreeSet<String>> =
    LazyLock::new(|| (0..LEAST).map(|number| sites(3, number).told()).collect());

/// The answers are the port's to all lists that are compared with it, and to others they are not.
#[test]
fn an_answer_that_goes_by_the_other_sites_is_a_difference() {
    let told = difference(|list| {
        let mut outcomes = list.port_outcomes()?;
        if !LISTS.contains(&list.told()) {
            let records = outcomes.iter_mut().filter_map(|outcome| outcome.records.last_mut());
            records.for_each(|record| record.struck ^= 1);
        }
        Ok(outcomes)
    });
    assert!(told.contains(": made's answer to site "), "{told}");
    assert!(told.contains(" differs among others: line "), "{told}");
    assert_eq!(told.matches("\nsites\nbook ").count(), 2, "{told}");
    let told = difference(|list| {
        let mut outcomes = list.port_outcomes()?;
        if !LISTS.contains(&list.told()) {
            outcomes.pop();
        }
        Ok(outcomes)
    });
    let told = told.lines().next().unwrap();
    assert!(told.contains(" answers to ") && told.ends_with(" sites"), "{told}");
}

/// Where those before a site used another number of branchings, its answer may be another.
#[test]
fn a_site_after_others_that_use_more_is_not_compared() {
    let mut tally = Tally::default();
    let list =
        (0..LEAST).map(|number| sites(3, number)).find(|list| list.sites.len() == 3).unwrap();
    let [one, two] = ["can 0 1 0 0\n", "can 0 2 0 0\n"].map(str::to_string);
    let answers = [one.clone(), two.clone(), one.clone()];
    let mut others = made(|_| {
        let outcome = |branchings| Outcome { ending: CAN, branchings, ..Outcome::refused(0) };
        Ok([2, 2, 3].map(outcome).to_vec())
    });
    let mut at = |at| among_others(others[0].as_mut(), (&list, &answers), (&list, at), &mut tally);
    assert_eq!([at(1), at(2)], [Ok(()), Ok(())]);
    assert!(at(0).unwrap_err().contains("site 0 differs among others: line 1 is `can 0 2 0 0`"));
}

/// 7 branchings for three sites are parts of 2, and 1 remains.
#[test]
fn shares_are_the_parts_up_to_the_sites_own_less_what_was_used() {
    assert_eq!(shares(7, &[0, 0, 0]), Ok(vec![3, 5, 7]));
    assert_eq!(shares(7, &[3, 1, 3]), Ok(vec![3, 2, 3]));
    assert_eq!(shares(2, &[0, 2, 0]), Ok(vec![2, 2, 0]));
    let most = shares(u32::MAX, &[0, 1, u32::MAX - 1]).unwrap();
    assert_eq!(most, [1_431_655_765, 2_863_311_530, 4_294_967_294]);
    let told = |used: &[u32]| shares(7, used).unwrap_err();
    assert_eq!(told(&[4, 0, 0]), "site 1 has 1 branchings, and its part is 2");
    assert_eq!(told(&[0, 7, 0]), "site 2 has 0 branchings, and its part is 2");
    assert_eq!(told(&[3, 2, 3]), "all sites used 8 branchings of 7");
}

#[test]
fn another_allowance_of_the_ports_is_told() {
    let served = |allowance| Served { allowance, outcome: Outcome::refused(7) };
    assert_eq!(agree(&[served(3), served(5)], &[3, 5]), Ok(()));
    let told = agree(&[served(3), served(5)], &[3, 4]).unwrap_err();
    assert_eq!(told, "the port gives site 1 5 branchings, and its share is 4");
}

#[test]
fn outcomes_are_taken_apart_at_their_first_lines() {
    let text = "refused 7 0 0 0\ncannot 0 3 1 1\nd 0 0\nr 0 0 3\ncan 0 0 0 0\n";
    let due = ["refused 7 0 0 0\n", "cannot 0 3 1 1\nd 0 0\nr 0 0 3\n", "can 0 0 0 0\n"];
    assert_eq!(one_by_one(text), due);
    assert_eq!(branchings(due[1]), Ok(3));
    assert!(branchings("can 0\n").is_err());
}

#[test]
fn a_kind_that_was_not_seen_is_named() {
    let told = |tally: &Tally| tally.has_all().unwrap_err();
    assert_eq!(told(&Tally::default()), "no sites with ending `can` were seen");
    let mut tally = run(&mut [Box::new(Port)], 3, LEAST).unwrap().unwrap();
    tally.others_after = 0;
    assert_eq!(told(&tally), "no sites with others after the same were seen");
    tally.others_before = 0;
    assert_eq!(told(&tally), "no sites with others before the same were seen");
    tally.sorts.remove("a rest used");
    assert_eq!(told(&tally), "no sites with sort `a rest used` were seen");
    tally.endings.remove("stopped 11");
    assert_eq!(told(&tally), "no sites with ending `stopped 11` were seen");
}

#[test]
fn a_program_is_asked_no_sites() {
    let program = Program { path: "./no-such-program".to_string(), page: None };
    assert!(run(&mut [Box::new(program)], 1, LEAST).unwrap().is_none());
}

#[test]
fn lists_go_with_the_books() {
    assert_eq!([beside(0), beside(800), beside(4000)], [400, 400, 2000]);
}
