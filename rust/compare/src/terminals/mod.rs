//! Generated lists of sites that share one allowance through the checker under test and through the port,
//! all that is printed compared, and every place of each site's tables and each number of the terminal
//! looked at (lent/sites.rs). Each answer must also be the checker's own to the site asked singly, with the
//! allowance that is worked out here, and to the site among others that leave as much unused before it.
//! Then the next site of terminals that have any three numbers (at_will.rs).

mod at_will;
mod made;
mod sorts;

pub use at_will::terminal;
pub use made::sites;

use crate::question::{ending_name, first_difference, in_turn, Question, Site, Sites};
use crate::under_test::UnderTest;
use port::{Ending, Served, CAN, CANNOT};
use sorts::{Run, SORTS};
use std::collections::BTreeMap;

/// At least so many lists, so that every kind is seen, and one for so many books.
const LEAST: usize = 400;
const BOOKS: usize = 2;

/// So many lists go to one checker before the next one's turn. The kinds of lists come round in other
/// numbers (made.rs), so each comes to each checker.
const TURN: usize = 7;

/// The endings of sites, and the refusal of a whole list.
const ENDINGS: [Ending; 15] = [
    CAN,
    CANNOT,
    Ending::Refused(1),
    Ending::Refused(2),
    Ending::Refused(3),
    Ending::Refused(4),
    Ending::Refused(5),
    Ending::Refused(6),
    Ending::Refused(7),
    Ending::Refused(8),
    Ending::Refused(9),
    Ending::Stopped(10),
    Ending::Stopped(11),
    Ending::Refused(12),
    Ending::Refused(21),
];

/// What was compared: the lists by what came up in them, the endings of their sites, the answers that were
/// also asked for singly, those among other sites before and after, and the terminals of any numbers.
#[derive(Debug, Default)]
pub struct Tally {
    lists: usize,
    endings: BTreeMap<String, usize>,
    sorts: BTreeMap<&'static str, usize>,
    singly: usize,
    others_before: usize,
    others_after: usize,
    terminals: at_will::Tally,
}

/// So many lists go with so many books.
pub fn beside(books: usize) -> usize {
    LEAST.max(books / BOOKS)
}

/// Runs this many generated lists, and as many terminals of any numbers, through these checkers in turn,
/// which differ in the rubbish in what they are lent; the first difference ends it and is told in words, as
/// is a kind that was never seen. Checkers that take no sites are not asked.
pub fn run(
    tested: &mut [Box<dyn UnderTest>],
    seed: u64,
    lists: usize,
) -> Result<Option<Tally>, String> {
    let asked: [Question; 2] = [sites(seed, 0).into(), terminal(seed, 0).into()];
    if !tested.iter().all(|checker| asked.iter().all(|question| checker.takes(question))) {
        return Ok(None);
    }
    let mut tally = Tally::default();
    for number in 0..lists {
        let checker = tested[number / TURN % tested.len()].as_mut();
        let list = sites(seed, number);
        let other = made::other(seed, number, &list);
        compare(checker, &list, other, &mut tally).map_err(|difference| {
            format!("sites {number} of seed {seed}: {difference}\n{}", list.told())
        })?;
        let terminal = terminal(seed, number);
        at_will::compare(checker, &terminal, &mut tally.terminals).map_err(|difference| {
            format!("terminal {number} of seed {seed}: {difference}\n{}", terminal.told())
        })?;
    }
    tally.has_all()?;
    Ok(Some(tally))
}

/// Compares one list, and where it is served each of its sites singly, and one of them among the sites of
/// another list; and counts it.
fn compare(
    tested: &mut dyn UnderTest,
    list: &Sites,
    other: Option<(Sites, usize)>,
    tally: &mut Tally,
) -> Result<(), String> {
    let served = list.port_served();
    let (due, printed) = (in_turn(&list.port_outcomes()), tested.printed(&list.clone().into())?);
    if printed != due {
        let line = first_difference(&printed, &due);
        return Err(format!("the answers differ: {}'s {line}", tested.name()));
    }
    if let Ok(served) = &served {
        let answers = one_by_one(&printed);
        let used =
            answers.iter().map(|answer| branchings(answer)).collect::<Result<Vec<_>, _>>()?;
        let shares = shares(list.allowance, &used)?;
        agree(served, &shares)?;
        by_single_checks(tested, list, &shares, &answers, tally)?;
        if let Some((other, at)) = other {
            among_others(tested, (list, &answers), (&other, at), tally)?;
        }
    }
    tally.add(list, &served);
    Ok(())
}

/// The outcomes in a text of several, one by one.
fn one_by_one(printed: &str) -> Vec<String> {
    let mut texts: Vec<String> = Vec::new();
    for line in printed.lines() {
        if texts.is_empty() || !(line.starts_with("d ") || line.starts_with("r ")) {
            texts.push(String::new());
        }
        let text = texts.last_mut().expect("there is an outcome");
        *text += &format!("{line}\n");
    }
    texts
}

/// The branchings that an outcome has on its first line.
fn branchings(outcome: &str) -> Result<u32, String> {
    let count = outcome.split_whitespace().nth(2).and_then(|word| word.parse().ok());
    count.ok_or(format!("no branchings in `{outcome}`"))
}

/// The allowance of each of so many sites that used so many branchings: the parts up to the site's own,
/// and the remainder, less what those before it used. It is an error if one has less than its part, or if
/// all together used more than the whole.
fn shares(whole: u32, used: &[u32]) -> Result<Vec<u32>, String> {
    let (whole, count) = (i64::from(whole), used.len() as i64);
    let (part, remainder) = (whole / count, whole % count);
    let mut shares = Vec::new();
    let mut before = 0;
    for (index, &used) in used.iter().enumerate() {
        let share = (index as i64 + 1) * part + remainder - before;
        if share < part {
            return Err(format!("site {index} has {share} branchings, and its part is {part}"));
        }
        shares.push(share as u32);
        before += i64::from(used);
    }
    match before <= whole {
        true => Ok(shares),
        false => Err(format!("all sites used {before} branchings of {whole}")),
    }
}

/// The port gave each site its share.
fn agree(served: &[Served], shares: &[u32]) -> Result<(), String> {
    let given = served.iter().map(|served| served.allowance);
    match given.zip(shares).enumerate().find(|(_, (given, share))| given != *share) {
        Some((index, (given, share))) => {
            Err(format!("the port gives site {index} {given} branchings, and its share is {share}"))
        }
        None => Ok(()),
    }
}

/// The checker's answer to each site asked singly with its share is the one among the list's.
fn by_single_checks(
    tested: &mut dyn UnderTest,
    list: &Sites,
    shares: &[u32],
    answers: &[String],
    tally: &mut Tally,
) -> Result<(), String> {
    for (index, (&share, answer)) in shares.iter().zip(answers).enumerate() {
        let singly = tested.printed(&Question::from(list.singly(index, share)))?;
        if singly != *answer {
            let (name, line) = (tested.name(), first_difference(answer, &singly));
            return Err(format!("{name}'s single check of site {index} differs: {line}"));
        }
        tally.singly += 1;
    }
    Ok(())
}

/// The checker's answer to the site with this index, which another list has too, is the same in both, where
/// those before it used as much in both.
fn among_others(
    tested: &mut dyn UnderTest,
    (list, answers): (&Sites, &[String]),
    (other, at): (&Sites, usize),
    tally: &mut Tally,
) -> Result<(), String> {
    let among = one_by_one(&tested.printed(&other.clone().into())?);
    if among.len() != answers.len() {
        let (given, due, told) = (among.len(), answers.len(), other.told());
        return Err(format!("{given} answers to {due} sites\n{told}"));
    }
    let used_before = |answers: &[String]| -> Result<u64, String> {
        answers[..at].iter().map(|answer| branchings(answer).map(u64::from)).sum()
    };
    if used_before(answers)? != used_before(&among)? {
        return Ok(());
    }
    if among[at] != answers[at] {
        let (name, line) = (tested.name(), first_difference(&among[at], &answers[at]));
        let told = other.told();
        return Err(format!("{name}'s answer to site {at} differs among others: {line}\n{told}"));
    }
    tally.others_before += usize::from(differ(&list.sites[..at], &other.sites[..at]));
    tally.others_after += usize::from(differ(&list.sites[at + 1..], &other.sites[at + 1..]));
    Ok(())
}

/// The sites are not the same ones.
fn differ(sites: &[Site], others: &[Site]) -> bool {
    let of = |site: &Site| (site.order.words(), site.places.derived, site.places.records);
    sites.iter().map(of).ne(others.iter().map(of))
}

impl Tally {
    fn add(&mut self, list: &Sites, served: &Result<Vec<Served>, u32>) {
        self.lists += 1;
        let endings = match served {
            Ok(served) => served.iter().map(|served| served.outcome.ending).collect(),
            Err(number) => vec![Ending::Refused(*number)],
        };
        for ending in endings {
            *self.endings.entry(ending_name(ending)).or_default() += 1;
        }
        let run = Run { list, served: served.as_deref().unwrap_or(&[]) };
        for (name, _) in SORTS.iter().filter(|(_, is_such)| is_such(&run)) {
            *self.sorts.entry(name).or_default() += 1;
        }
    }

    /// Every ending and every sort was seen, sites among others, and every sort of terminal.
    fn has_all(&self) -> Result<(), String> {
        let endings = ENDINGS.into_iter().map(ending_name);
        let counts = endings.map(|ending| (format!("ending `{ending}`"), self.ending(&ending)));
        let sorts = SORTS.iter().map(|(name, _)| (format!("sort `{name}`"), self.sort(name)));
        let others = [("before", self.others_before), ("after", self.others_after)];
        let others =
            others.into_iter().map(|(name, count)| (format!("others {name} the same"), count));
        match counts.chain(sorts).chain(others).find(|(_, count)| *count == 0) {
            Some((what, _)) => Err(format!("no sites with {what} were seen")),
            None => self.terminals.has_all(),
        }
    }

    fn ending(&self, name: &str) -> usize {
        self.endings.get(name).copied().unwrap_or(0)
    }

    fn sort(&self, name: &str) -> usize {
        self.sorts.get(name).copied().unwrap_or(0)
    }

    /// So many lists, of which endings and sorts, and what else gave the same.
    pub fn told(&self) -> String {
        let endings = ENDINGS.into_iter().map(ending_name);
        let endings: Vec<String> =
            endings.map(|ending| format!("{ending} {}", self.ending(&ending))).collect();
        let sorts: Vec<String> =
            SORTS.iter().map(|(name, _)| format!("{name} {}", self.sort(name))).collect();
        format!(
            "{:<20} {:>6}   {}\nlists have: {}\nanswers of sites that single checks give too: {}\n\
             answers of sites among others before: {}, after: {}\n{}",
            "lists of sites",
            self.lists,
            endings.join(", "),
            sorts.join(", "),
            self.singly,
            self.others_before,
            self.others_after,
            self.terminals.told()
        )
    }
}

#[cfg(test)]
mod tests;
