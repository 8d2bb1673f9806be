//! Generated orders with open options through the checker under test and through the port, all that is
//! printed compared, and every place of the tables looked at (lent/open.rs). Each answer must also be
//! what the checker's own single checks of the settings give together, and on small books what trying
//! all choices gives.

mod made;

pub use made::open;

use crate::choices;
use crate::question::{first_difference, tried_text, verdict_name, Open, Question};
use crate::under_test::UnderTest;
use optbook::bytes::{input_bytes, read_input};
use port::{Ending, Outcome, Tried, Verdict};
use std::collections::BTreeMap;

/// At least so many questions, so that every kind is seen, and one for so many books.
const LEAST: usize = 400;
const BOOKS: usize = 2;

/// So many questions go to one checker before the next one's turn. The sorts of open options come round
/// in other numbers (made.rs), so each comes to each checker.
const TURN: usize = 7;

/// Refusals of a question with open options, in their order.
const REFUSALS: [u32; 12] = [1, 2, 3, 4, 5, 6, 7, 8, 12, 19, 20, 9];

/// What was compared: the questions by how they ended and by what was open, the settings that were also
/// asked singly, and the verdicts that trying all choices gives too.
#[derive(Debug, Default)]
pub struct Tally {
    questions: usize,
    endings: BTreeMap<String, usize>,
    sorts: BTreeMap<&'static str, usize>,
    singly: usize,
    by_choices: usize,
}

/// So many questions go with so many books.
pub fn beside(books: usize) -> usize {
    LEAST.max(books / BOOKS)
}

/// Runs this many generated questions through these checkers in turn, which differ in the rubbish in the
/// tables that they are lent; the first difference ends it and is told in words, as is a kind that was
/// never seen. Checkers that take no open options are not asked.
pub fn run(
    tested: &mut [Box<dyn UnderTest>],
    seed: u64,
    questions: usize,
) -> Result<Option<Tally>, String> {
    if !tested.iter().all(|checker| checker.takes(&open(seed, 0).into())) {
        return Ok(None);
    }
    let mut tally = Tally::default();
    for number in 0..questions {
        let open = open(seed, number);
        let checker = tested[number / TURN % tested.len()].as_mut();
        compare(checker, &open, &mut tally).map_err(|difference| {
            format!("open options {number} of seed {seed}: {difference}\n{}", open.told())
        })?;
    }
    tally.has_all()?;
    Ok(Some(tally))
}

/// Compares one question, and counts it.
fn compare(tested: &mut dyn UnderTest, open: &Open, tally: &mut Tally) -> Result<(), String> {
    let tried = open.port_tried();
    let (due, printed) = (tried_text(&tried), tested.printed(&open.clone().into())?);
    if printed != due {
        let line = first_difference(&printed, &due);
        return Err(format!("the answers differ: {}'s {line}", tested.name()));
    }
    if let Ok(tried) = &tried {
        let singly = by_single_checks(tested, open, tally)?;
        if singly != printed {
            let line = first_difference(&printed, &singly);
            return Err(format!("{}'s single checks differ: {line}", tested.name()));
        }
        confirm(open, tried.verdict, tally)?;
    }
    tally.add(open, &tried);
    Ok(())
}

/// What the checker's answers to single checks of the settings give together, as it is printed.
fn by_single_checks(
    tested: &mut dyn UnderTest,
    open: &Open,
    tally: &mut Tally,
) -> Result<String, String> {
    let (mut can, mut cannot, mut last) = (false, false, String::new());
    for setting in open.settings() {
        last = tested.printed(&Question::from(open.singly(setting)))?;
        tally.singly += 1;
        match last.split(' ').next() {
            Some("can") => can = true,
            Some("cannot") => cannot = true,
            _ => return Ok(format!("{}\n{last}", verdict_name(Verdict::Stopped, setting))),
        }
    }
    let verdict = match (can, cannot) {
        (true, false) => Verdict::Always,
        (true, true) => Verdict::Sometimes,
        (false, _) => Verdict::Never,
    };
    Ok(format!("{}\n{last}", verdict_name(verdict, open.open)))
}

/// The verdict is the one that trying all choices gives, on a small book.
fn confirm(open: &Open, verdict: Verdict, tally: &mut Tally) -> Result<(), String> {
    let (order, book) = read_input(&input_bytes(open.order, &open.book))
        .map_err(|fault| format!("a verdict on bytes that are no book: {fault}"))?;
    let Some(built) = choices::settings_built(order, open.open, &book) else { return Ok(()) };
    let by_choices = match built {
        0 => Verdict::Never,
        _ if built == 1 << open.open.count_ones() => Verdict::Always,
        _ => Verdict::Sometimes,
    };
    match verdict {
        Verdict::Stopped => Ok(()),
        _ if verdict == by_choices => {
            tally.by_choices += 1;
            Ok(())
        }
        _ => {
            let [verdict, by_choices] = [verdict, by_choices].map(|v| verdict_name(v, 0));
            Err(format!("the verdict is {verdict}, and by trying all choices {by_choices}"))
        }
    }
}

/// How a question ended: a stop with its number, and whether it is the first setting's.
fn ending(tried: &Result<Tried, u32>) -> String {
    match tried {
        Err(number) => refusal(*number),
        Ok(Tried { setting, last: Outcome { ending: Ending::Stopped(number), .. }, .. }) => {
            stop(*number, *setting == 0)
        }
        Ok(Tried { verdict, setting, .. }) => verdict_name(*verdict, *setting),
    }
}

fn refusal(number: u32) -> String {
    format!("refused {number}")
}

fn stop(number: u32, is_first: bool) -> String {
    format!("stopped {number} at {} setting", if is_first { "the first" } else { "a later" })
}

/// All endings, in the order in which they are told.
fn endings() -> Vec<String> {
    let verdicts = [Verdict::Always, Verdict::Sometimes, Verdict::Never];
    let stops = [(10, true), (10, false), (11, true), (11, false)];
    let verdicts = verdicts.map(|verdict| verdict_name(verdict, 0)).into_iter();
    let stops = stops.into_iter().map(|(number, is_first)| stop(number, is_first));
    verdicts.chain(stops).chain(REFUSALS.into_iter().map(refusal)).collect()
}

/// A sort of open options, by name, and whether a question has it.
type Sort = (&'static str, fn(&Open) -> bool);

/// What may be open, in the order in which it is told. A question may be of several sorts.
const SORTS: [Sort; 8] = [
    ("none", |open| open.open == 0),
    ("one", |open| open.open.count_ones() == 1),
    ("two to nine", |open| (2..10).contains(&open.open.count_ones())),
    ("ten", |open| open.open.count_ones() == 10),
    ("more than ten", |open| open.open.count_ones() > 10),
    ("above n", |open| {
        let options = usize::from(*open.book.first().unwrap_or(&0));
        open.open & !optbook::first(options) != 0
    }),
    ("wanted or unwanted", |open| open.open & (open.order.wanted | open.order.unwanted) != 0),
    ("standard", |open| open.open & open.order.standard != 0),
];

impl Tally {
    fn add(&mut self, open: &Open, tried: &Result<Tried, u32>) {
        self.questions += 1;
        *self.endings.entry(ending(tried)).or_default() += 1;
        for (name, _) in SORTS.iter().filter(|(_, is_such)| is_such(open)) {
            *self.sorts.entry(name).or_default() += 1;
        }
    }

    /// Every ending and every sort of open options was seen, and a verdict by trying all choices.
    fn has_all(&self) -> Result<(), String> {
        let ending = endings().into_iter().find(|ending| !self.endings.contains_key(ending));
        let sort = SORTS.iter().find(|(name, _)| !self.sorts.contains_key(name));
        match (ending, sort) {
            (Some(ending), _) => Err(format!("no open options with `{ending}` were seen")),
            (None, Some((name, _))) => {
                Err(format!("no open options of the sort `{name}` were seen"))
            }
            (None, None) if self.by_choices == 0 => {
                Err("no verdict on open options was found by trying all choices".to_string())
            }
            (None, None) => Ok(()),
        }
    }

    /// So many questions, of which endings and sorts, and what others gave too.
    pub fn told(&self) -> String {
        let count = |count: Option<&usize>| count.copied().unwrap_or(0);
        let endings: Vec<String> = endings()
            .iter()
            .map(|ending| format!("{ending} {}", count(self.endings.get(ending))))
            .collect();
        let sorts: Vec<String> = SORTS
            .iter()
            .map(|(name, _)| format!("{name} {}", count(self.sorts.get(name))))
            .collect();
        format!(
            "{:<20} {:>6}   {}\nopen are: {}\nsettings of open options by single checks too: {}\n\
             verdicts on open options by trying all choices too: {}\n",
            "open options",
            self.questions,
            endings.join(", "),
            sorts.join(", "),
            self.singly,
            self.by_choices
        )
    }
}

#[cfg(test)]
mod tests;
