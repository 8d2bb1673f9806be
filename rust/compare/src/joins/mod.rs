//! Generated pairs of books, joined by the checker under test and by the port, byte for byte; the bytes that are
//! lent are looked at in lent/join.rs. What a joint book means is held to the two books and the pairs
//! (meaning.rs): by its rules, by all choices of small ones, by an outside solver, and by the checker's own
//! check of it.

mod made;
mod meaning;
mod sorts;

pub use made::join;

use crate::question::{first_difference, joined_text, Check, Join, Joined};
use crate::under_test::UnderTest;
use meaning::{Books, Built, Outside};
use optbook::bytes::input_bytes;
use optbook::Order;
use sorts::{Run, SORTS};
use std::collections::BTreeMap;

/// At least so many joins, so that every sort is seen, and one for so many books.
const LEAST: usize = 400;
const BOOKS: usize = 2;

/// The solver is asked about so many joint books, the first ones.
const SOLVED: usize = 200;

/// What the solver may say of the two books and the joint one.
const VERDICTS: [(&str, Built); 5] = [
    ("all can", built(true, true, true)),
    ("both can, joined cannot", built(true, true, false)),
    ("the first cannot", built(false, true, false)),
    ("the second cannot", built(true, false, false)),
    ("both cannot", built(false, false, false)),
];

const fn built(first: bool, second: bool, joint: bool) -> Built {
    Built { first, second, joint }
}

/// What was compared: the joins by their endings and by what came up, the joint books by the solver's verdicts,
/// and how many verdicts of the checker on joint books others confirmed.
#[derive(Debug, Default)]
pub struct Tally {
    joins: usize,
    endings: BTreeMap<String, usize>,
    sorts: BTreeMap<&'static str, usize>,
    verdicts: BTreeMap<Built, usize>,
    solved: usize,
    tried_all_choices: usize,
    stopped: usize,
}

/// So many joins go with so many books.
pub fn beside(books: usize) -> usize {
    LEAST.max(books / BOOKS)
}

/// Runs this many generated joins; the first difference ends it and is told in words, as is a sort that was never
/// seen. A checker that takes no join is not asked.
pub fn run(
    tested: &mut dyn UnderTest,
    outside: Outside,
    seed: u64,
    joins: usize,
) -> Result<Option<Tally>, String> {
    if !tested.takes(&join(seed, 0).into()) {
        return Ok(None);
    }
    let mut tally = Tally::default();
    for number in 0..joins {
        let join = join(seed, number);
        compare(tested, outside, &join, &mut tally).map_err(|difference| {
            format!("join {number} of seed {seed}: {difference}\n{}", join.told())
        })?;
    }
    tally.has_all()?;
    Ok(Some(tally))
}

/// Compares one join, looks at what its joint book means, and counts it.
fn compare(
    tested: &mut dyn UnderTest,
    outside: Outside,
    join: &Join,
    tally: &mut Tally,
) -> Result<(), String> {
    let joined = join.port_joined();
    let (due, printed) = (joined_text(&joined), tested.printed(&join.clone().into())?);
    if printed != due {
        let line = first_difference(&printed, &due);
        return Err(format!("the joint books differ: {}'s {line}", tested.name()));
    }
    if let Ok(joint) = &joined {
        let others = verdicts(&Books::read(join, joint)?, outside, tally)?;
        match own_verdict(tested, joint)? {
            None => tally.stopped += 1,
            Some(own) if others.iter().all(|other| *other == own) => (),
            Some(own) => {
                let name = tested.name();
                return Err(format!("{name}'s verdict on the joint book, {own}, is not others'"));
            }
        }
    }
    tally.add(join, &joined);
    Ok(())
}

/// Whether a joint book can be built, by each that says so. It is an error if it is not that of its two books.
fn verdicts(books: &Books, outside: Outside, tally: &mut Tally) -> Result<Vec<bool>, String> {
    books.rules_are_theirs()?;
    let mut verdicts = Vec::from_iter(books.by_choices()?);
    tally.tried_all_choices += verdicts.len();
    if tally.solved < SOLVED {
        let built = books.by_solver(outside)?;
        tally.solved += 1;
        *tally.verdicts.entry(built).or_default() += 1;
        verdicts.push(built.joint);
    }
    Ok(verdicts)
}

/// The checker's own verdict on a joint book, which it does not refuse; none where it stops.
fn own_verdict(tested: &mut dyn UnderTest, joint: &[u8]) -> Result<Option<bool>, String> {
    let check = Check::of_program(input_bytes(Order::default(), joint));
    let printed = tested.printed(&check.into())?;
    match printed.split(' ').next() {
        Some("can") => Ok(Some(true)),
        Some("cannot") => Ok(Some(false)),
        Some("stopped") => Ok(None),
        _ => {
            let line = printed.lines().next().unwrap_or_default();
            Err(format!("{}'s check of the joint book is `{line}`", tested.name()))
        }
    }
}

/// What came of a join, by name: which book was refused with which number, another refusal, or a joint book.
fn ending(run: &Run, joined: &Joined) -> String {
    match (run.refusals, joined) {
        ([Some(number), _], _) => format!("first refused {number}"),
        ([None, Some(number)], _) => format!("second refused {number}"),
        (_, Err(number)) => format!("refused {number}"),
        (_, Ok(_)) => "joined".to_string(),
    }
}

/// All endings, in the order in which they are told.
fn endings() -> Vec<String> {
    let of_books =
        ["first", "second"].map(|book| (1..=6).map(move |k| format!("{book} refused {k}")));
    let others = ["refused 22", "refused 23", "joined"].map(str::to_string);
    of_books.into_iter().flatten().chain(others).collect()
}

impl Tally {
    fn add(&mut self, join: &Join, joined: &Joined) {
        self.joins += 1;
        let run = Run::new(join, joined);
        *self.endings.entry(ending(&run, joined)).or_default() += 1;
        for (name, _) in SORTS.iter().filter(|(_, is_such)| is_such(&run)) {
            *self.sorts.entry(name).or_default() += 1;
        }
    }

    /// Each ending, sort and verdict by its name, and how often it was seen.
    fn counts(&self) -> [Vec<(String, usize)>; 3] {
        let count = |count: Option<&usize>| count.copied().unwrap_or(0);
        let ending = |ending: String| (ending.clone(), count(self.endings.get(&ending)));
        let sort = |name: &'static str| (name.to_string(), count(self.sorts.get(name)));
        let verdict =
            |(name, built): (&str, Built)| (name.to_string(), count(self.verdicts.get(&built)));
        [
            endings().into_iter().map(ending).collect(),
            SORTS.iter().map(|(name, _)| sort(name)).collect(),
            VERDICTS.map(verdict).to_vec(),
        ]
    }

    /// Every ending, sort and verdict was seen.
    fn has_all(&self) -> Result<(), String> {
        match self.counts().into_iter().flatten().find(|(_, count)| *count == 0) {
            Some((name, _)) => Err(format!("no join with `{name}` was seen")),
            None => Ok(()),
        }
    }

    /// So many joins, of which endings and sorts, and what others said of the joint books.
    pub fn told(&self) -> String {
        let [endings, sorts, verdicts] = self.counts().map(|counts| {
            let told = counts.iter().map(|(name, count)| format!("{name} {count}"));
            told.collect::<Vec<String>>().join(", ")
        });
        format!(
            "{:<20} {:>6}   {endings}\njoins have: {sorts}\n\
             joint books by the outside solver too: {}, {verdicts}\n\
             joint books by trying all choices too: {}\njoint books whose check stopped: {}\n",
            "joins", self.joins, self.solved, self.tried_all_choices, self.stopped
        )
    }
}

#[cfg(test)]
mod tests;
