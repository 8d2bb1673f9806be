//! Generated terminals of any three numbers, and their next site, through the checker under test, the port
//! and the allowance that these numbers give. Terminal number i of a seed is the same wherever it is made.

use crate::kinds::{wishes_and_book, Kind};
use crate::orders::some_order;
use crate::question::{after_text, first_difference, After, Question, Terminal};
use crate::random::Random;
use crate::refused::refused_bytes;
use crate::under_test::UnderTest;
use optbook::bytes::book_bytes;
use port::{Ending, Places};
use std::collections::BTreeMap;

/// Places for records; those for derived rules are ample for the books here.
const RECORDS: usize = 64;
const PLACES: usize = 32;

/// The terminal with this number, counted from 0.
pub fn terminal(seed: u64, number: usize) -> Terminal {
    let mut random = Random::new(seed ^ (number as u64).wrapping_mul(0x9fb2_1c65_1e98_df25));
    let (options, book) = match random.below(12) {
        0 => {
            let (_, book) = wishes_and_book(&mut random, Kind::AboveN);
            let refusal = random.between(1, 6);
            (book.options, refused_bytes(&mut random, &book, refusal))
        }
        _ => {
            let (_, book) = wishes_and_book(&mut random, Kind::Tiny);
            (book.options, book_bytes(&book))
        }
    };
    let order = some_order(&mut random, options);
    let [left, part, sites] = numbers(&mut random);
    let places = Places::equal(PLACES, RECORDS + random.below(9));
    Terminal { book, left, part, sites, order, places }
}

/// What is left, the part, and the sites to come: of a terminal that was opened and of none, small and
/// large, with parts that are exactly what is left, one more or one less, or beyond 2^32.
fn numbers(random: &mut Random) -> [u32; 3] {
    let sites = match random.below(5) {
        0 => 0,
        1 => 1,
        2 | 3 => random.between(2, 9) as u32,
        _ => large(random),
    };
    let part = match random.below(3) {
        0 | 1 => random.below(20) as u32,
        _ => large(random),
    };
    let parts = u64::from(part) * u64::from(sites.saturating_sub(1));
    let around = parts.min(u64::from(u32::MAX)) as u32;
    let left = match random.below(6) {
        0 => around,
        1 => around.saturating_add(1),
        2 => around.saturating_sub(1),
        3 => around.saturating_add(random.below(9) as u32),
        4 => random.below(20) as u32,
        _ => large(random),
    };
    [left, part, sites]
}

/// A number near 2^32, or near a power of two, or any.
fn large(random: &mut Random) -> u32 {
    match random.below(3) {
        0 => u32::MAX - random.below(9) as u32,
        1 => (1u32 << random.between(15, 31)) + random.below(3) as u32,
        _ => random.word() as u32,
    }
}

/// Compares one terminal, and its site singly, and counts it.
pub fn compare(
    tested: &mut dyn UnderTest,
    terminal: &Terminal,
    tally: &mut Tally,
) -> Result<(), String> {
    let after = terminal.port_after();
    let (due, printed) = (after_text(&after), tested.printed(&terminal.clone().into())?);
    if printed != due {
        let line = first_difference(&printed, &due);
        return Err(format!("the answers differ: {}'s {line}", tested.name()));
    }
    let After { outcome, left, sites } = after;
    if let Some(allowance) = terminal.allowance() {
        let singly = tested.printed(&Question::from(terminal.singly(allowance)))?;
        let with_terminal = format!("{singly}left {left}\nsites {sites}\n");
        if with_terminal != printed {
            let line = first_difference(&printed, &with_terminal);
            return Err(format!("{}'s single check differs: {line}", tested.name()));
        }
    }
    tally.add(terminal, outcome.ending);
    Ok(())
}

/// A sort of terminal, by name, and whether it is one.
type Sort = (&'static str, fn(&Terminal, Ending) -> bool);

/// The sorts, in the order in which they are told. A terminal may be of several.
const SORTS: [Sort; 10] = [
    ("no site to come", |terminal, _| terminal.sites == 0),
    ("one site to come", |terminal, _| terminal.sites == 1),
    ("more sites than may share", |terminal, _| terminal.sites > 8),
    ("less left than the parts", |terminal, _| u64::from(terminal.left) < parts(terminal)),
    ("the parts left", |terminal, _| {
        parts(terminal) > 0 && u64::from(terminal.left) == parts(terminal)
    }),
    ("one more left than the parts", |terminal, _| {
        parts(terminal) > 0 && u64::from(terminal.left) == parts(terminal) + 1
    }),
    ("parts beyond 2^32", |terminal, _| parts(terminal) > u64::from(u32::MAX)),
    ("nearly 2^32 to use", |terminal, _| {
        terminal.allowance().is_some_and(|allowance| allowance > u32::MAX - 100)
    }),
    ("stopped 10", |_, ending| ending == Ending::Stopped(10)),
    ("a verdict beside parts", |terminal, ending| {
        matches!(ending, Ending::Verdict(_)) && parts(terminal) > 0
    }),
];

/// The parts of the sites after the next one.
fn parts(terminal: &Terminal) -> u64 {
    u64::from(terminal.part) * u64::from(terminal.sites.saturating_sub(1))
}

/// What was compared: the terminals, by their sorts.
#[derive(Debug, Default)]
pub struct Tally {
    terminals: usize,
    sorts: BTreeMap<&'static str, usize>,
}

impl Tally {
    fn add(&mut self, terminal: &Terminal, ending: Ending) {
        self.terminals += 1;
        for (name, _) in SORTS.iter().filter(|(_, is_such)| is_such(terminal, ending)) {
            *self.sorts.entry(name).or_default() += 1;
        }
    }

    /// Every sort was seen.
    pub fn has_all(&self) -> Result<(), String> {
        match SORTS.iter().find(|(name, _)| !self.sorts.contains_key(name)) {
            Some((name, _)) => Err(format!("no terminal of the sort `{name}` was seen")),
            None => Ok(()),
        }
    }

    /// So many terminals, of which sorts.
    pub fn told(&self) -> String {
        let count = |name: &str| self.sorts.get(name).copied().unwrap_or(0);
        let sorts: Vec<String> =
            SORTS.iter().map(|(name, _)| format!("{name} {}", count(name))).collect();
        format!("{:<20} {:>6}   {}\n", "terminals at will", self.terminals, sorts.join(", "))
    }
}

#[cfg(test)]
mod tests {
    use super::*;
    use crate::question::Check;
    use crate::under_test::Port;
    use port::Outcome;

    /// A checker made of a function for a terminal and one for a check.
    struct Made {
        terminal: fn(&Terminal) -> After,
        check: fn(&Check) -> Outcome,
    }

    impl UnderTest for Made {
        fn name(&self) -> String {
            "made".to_string()
        }

        fn takes(&self, question: &Question) -> bool {
            matches!(question, Question::Check(_) | Question::Terminal(_))
        }

        fn printed(&mut self, question: &Question) -> Result<String, String> {
            match question {
                Question::Check(check) => Ok((self.check)(check).to_string()),
                Question::Terminal(terminal) => Ok(after_text(&(self.terminal)(terminal))),
                _ => Err("neither a check nor a terminal".to_string()),
            }
        }
    }

    /// Compares so many terminals.
    fn run(tested: &mut dyn UnderTest, terminals: usize) -> Result<Tally, String> {
        let mut tally = Tally::default();
        (0..terminals).try_for_each(|i| compare(tested, &terminal(3, i), &mut tally))?;
        Ok(tally)
    }

    /// What is told of a checker whose terminals are served in this way.
    fn difference(terminal: fn(&Terminal) -> After) -> String {
        run(&mut Made { terminal, check: Check::port_outcome }, 400).err().expect("a difference")
    }

    /// A terminal whose next site is served with another allowance.
    fn with_allowance(terminal: &Terminal, allowance: u32) -> After {
        let outcome = terminal.singly(allowance).port_outcome();
        let left = terminal.left.saturating_sub(outcome.branchings);
        After { outcome, left, sites: terminal.sites.saturating_sub(1) }
    }

    #[test]
    fn every_sort_comes_whatever_the_seed_is() {
        for seed in 1..9 {
            let mut tally = Tally::default();
            for number in 0..400 {
                compare(&mut Port, &terminal(seed, number), &mut tally).unwrap();
            }
            assert_eq!(tally.has_all(), Ok(()));
            assert!(tally.told().starts_with("terminals at will       400   no site to come "));
        }
    }

    /// The port's own answers give no difference, so that those below come from what is changed.
    #[test]
    fn another_allowance_is_a_difference() {
        let due = |terminal: &Terminal| match terminal.allowance() {
            Some(allowance) => with_allowance(terminal, allowance),
            None => terminal.port_after(),
        };
        let mut made = Made { terminal: due, check: Check::port_outcome };
        assert_eq!(run(&mut made, 400).unwrap().terminals, 400);
        let told = [
            // All that is left, a part alone, and products and differences that wrap round.
            difference(|terminal| match terminal.sites {
                0 => terminal.port_after(),
                _ => with_allowance(terminal, terminal.left),
            }),
            difference(|terminal| match terminal.sites {
                0 => terminal.port_after(),
                _ => with_allowance(terminal, terminal.part),
            }),
            difference(|terminal| match terminal.sites {
                0 => terminal.port_after(),
                sites => {
                    let parts = terminal.part.wrapping_mul(sites - 1);
                    with_allowance(terminal, terminal.left.saturating_sub(parts))
                }
            }),
            difference(|terminal| match terminal.sites {
                0 => terminal.port_after(),
                sites => {
                    let parts = terminal.part.saturating_mul(sites - 1);
                    with_allowance(terminal, terminal.left.wrapping_sub(parts))
                }
            }),
            difference(|terminal| match terminal.sites {
                0 => terminal.port_after(),
                sites => {
                    let parts = u64::from(terminal.part) * u64::from(sites);
                    let left = u64::from(terminal.left).saturating_sub(parts);
                    with_allowance(terminal, left as u32)
                }
            }),
        ];
        for told in told {
            assert!(told.starts_with("the answers differ: made's line "), "{told}");
        }
    }

    #[test]
    fn a_site_that_is_served_though_none_is_to_come_is_a_difference() {
        let told = difference(|terminal| match terminal.sites {
            0 => with_allowance(terminal, terminal.left),
            _ => terminal.port_after(),
        });
        assert!(told.contains(", due is `refused 21 0 0 0`"), "{told}");
    }

    #[test]
    fn a_number_that_is_not_brought_up_to_date_is_a_difference() {
        let told = difference(|terminal| After { left: terminal.left, ..terminal.port_after() });
        assert!(told.contains(" is `left "), "{told}");
        let told = difference(|terminal| After { sites: terminal.sites, ..terminal.port_after() });
        assert!(told.contains(" is `sites "), "{told}");
    }

    #[test]
    fn an_answer_that_is_not_the_single_checks_is_a_difference() {
        let check = |check: &Check| {
            let mut outcome = check.port_outcome();
            if let Some(record) = outcome.records.last_mut() {
                record.struck ^= 1;
            }
            outcome
        };
        let mut made = Made { terminal: Terminal::port_after, check };
        let told = run(&mut made, 400).err().unwrap();
        assert!(told.starts_with("made's single check differs: line "), "{told}");
    }

    #[test]
    fn a_sort_that_was_not_seen_is_named() {
        let told = Tally::default().has_all().unwrap_err();
        assert_eq!(told, "no terminal of the sort `no site to come` was seen");
        let mut tally = Tally::default();
        tally.sorts = SORTS.iter().map(|(name, _)| (*name, 1)).collect();
        assert_eq!(tally.has_all(), Ok(()));
        tally.sorts.remove("parts beyond 2^32");
        let told = tally.has_all().unwrap_err();
        assert_eq!(told, "no terminal of the sort `parts beyond 2^32` was seen");
    }
}
