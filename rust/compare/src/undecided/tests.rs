//! The comparison of open options sees each wrong reading of them.

use super::*;
use crate::question::Check;
use crate::under_test::{Port, Program};
use port::Places;

/// A checker made of a function for a question with open options and one for a check.
struct Made {
    open: fn(&Open) -> Result<Tried, u32>,
    check: fn(&Check) -> Outcome,
}

impl UnderTest for Made {
    fn name(&self) -> String {
        "made".to_string()
    }

    fn takes(&self, question: &Question) -> bool {
        matches!(question, Question::Check(_) | Question::Open(_))
    }

    fn printed(&mut self, question: &Question) -> Result<String, String> {
        match question {
            Question::Check(check) => Ok((self.check)(check).to_string()),
            Question::Open(open) => Ok(tried_text(&(self.open)(open))),
            _ => Err("neither a check nor open options".to_string()),
        }
    }
}

/// What is told of a checker that answers in this way.
fn difference(open: fn(&Open) -> Result<Tried, u32>) -> String {
    run(&mut [Box::new(Made { open, check: Check::port_outcome })], 3, LEAST).unwrap_err()
}

/// What these settings give together, each asked singly, with the allowance for the setting with each
/// index. It ends at the first stop, and where it is told to.
fn by_settings(
    open: &Open,
    settings: &[u64],
    allowance: impl Fn(usize) -> u32,
    is_done: impl Fn(bool, bool) -> bool,
) -> Result<Tried, u32> {
    open.port_tried()?;
    let (mut can, mut cannot) = (false, false);
    let mut tried = None;
    for (index, &setting) in settings.iter().enumerate() {
        let check = open.singly(setting);
        let last = check.with_limits(check.places, allowance(index)).port_outcome();
        match last.ending {
            Ending::Verdict(true) => can = true,
            Ending::Verdict(false) => cannot = true,
            _ => return Ok(Tried { verdict: Verdict::Stopped, setting, last }),
        }
        let verdict = match (can, cannot) {
            (true, false) => Verdict::Always,
            (true, true) => Verdict::Sometimes,
            (false, _) => Verdict::Never,
        };
        tried = Some(Tried { verdict, setting, last });
        if is_done(can, cannot) {
            break;
        }
    }
    tried.ok_or(0)
}

fn never_done(_: bool, _: bool) -> bool {
    false
}

/// The number of the refusal that comes first in this order, of those after the book's and the order's.
fn refused_in_order(open: &Open, order: [u32; 3]) -> Option<u32> {
    if matches!(open.port_tried(), Err(number) if !order.contains(&number)) {
        return None;
    }
    let Places { derived: [pos, neg], records } = open.places;
    let options = usize::from(open.book[0]);
    let holds = |number: u32| match number {
        19 => open.open.count_ones() > 10 || open.open & !optbook::first(options) != 0,
        20 => open.open & (open.order.wanted | open.order.unwanted) != 0,
        _ => pos != neg || pos > 2048 || records.iter().any(|&length| length < 64),
    };
    order.into_iter().find(|&number| holds(number))
}

#[test]
fn every_kind_is_seen_and_counted_whatever_the_seed_is() {
    for seed in 1..4 {
        let tally = run(&mut [Box::new(Port)], seed, beside(0)).unwrap().unwrap();
        assert_eq!(tally.questions, 400);
        assert_eq!(tally.endings.values().sum::<usize>(), 400);
        let told = tally.told();
        assert!(told.starts_with("open options            400   always "), "{told}");
        assert!(told.contains("\nopen are: none "), "{told}");
        let last =
            format!("verdicts on open options by trying all choices too: {}\n", tally.by_choices);
        assert!(told.ends_with(&last), "{told}");
    }
}

#[test]
fn the_first_difference_is_told_with_the_question() {
    let told = difference(|_| Err(21));
    let due = "open options 0 of seed 3: the answers differ: made's line 1 is `refused 21 0 0 0`, \
               due is `";
    assert!(told.starts_with(due), "{told}");
    assert!(told.contains("\nopen\nbook ") && told.contains("\nundecided "), "{told}");
}

#[test]
fn questions_of_each_sort_come_to_each_checker() {
    let wrong = |open: &Open| match open.open.count_ones() {
        10 => Err(19),
        _ => open.port_tried(),
    };
    for position in 0..2 {
        let mut tested: [Box<dyn UnderTest>; 2] = [Box::new(Port), Box::new(Port)];
        tested[position] = Box::new(Made { open: wrong, check: Check::port_outcome });
        let told = run(&mut tested, 3, LEAST).unwrap_err();
        assert!(told.contains(": made's line 1 is `refused 19 0 0 0`, due is `"), "{told}");
    }
}

/// The settings as they should be give no difference, so that those below come from what is changed.
#[test]
fn the_settings_one_by_one_differ_nowhere() {
    let open = |open: &Open| {
        let settings = match open.open.count_ones() {
            0..=10 => open.settings(),
            _ => Vec::new(),
        };
        by_settings(open, &settings, |_| open.allowance, never_done)
    };
    let tally = run(&mut [Box::new(Made { open, check: Check::port_outcome })], 3, LEAST);
    assert!(tally.unwrap().is_some());
}

#[test]
fn settings_in_another_order_are_a_difference() {
    let told = difference(|open| {
        open.port_tried()?;
        let mut settings = open.settings();
        settings.reverse();
        by_settings(open, &settings, |_| open.allowance, never_done)
    });
    assert!(told.contains("the answers differ: "), "{told}");
}

#[test]
fn an_early_end_is_a_difference() {
    let told = difference(|open| {
        open.port_tried()?;
        let is_clear = |can, cannot| can && cannot;
        by_settings(open, &open.settings(), |_| open.allowance, is_clear)
    });
    assert!(told.contains("the answers differ: "), "{told}");
}

#[test]
fn a_setting_too_few_is_a_difference() {
    for first in [true, false] {
        let told = match first {
            true => difference(|open| {
                open.port_tried()?;
                let settings = open.settings();
                let from = settings.len().min(2) - 1;
                by_settings(open, &settings[from..], |_| open.allowance, never_done)
            }),
            false => difference(|open| {
                open.port_tried()?;
                let settings = open.settings();
                let most = (settings.len() - 1).max(1);
                by_settings(open, &settings[..most], |_| open.allowance, never_done)
            }),
        };
        assert!(told.contains("the answers differ: "), "{told}");
    }
}

#[test]
fn an_allowance_that_is_shared_is_a_difference() {
    let told = difference(|open| {
        open.port_tried()?;
        let settings = open.settings();
        let share = open.allowance / settings.len() as u32;
        by_settings(open, &settings, |_| share, never_done)
    });
    assert!(told.contains("the answers differ: "), "{told}");
}

#[test]
fn a_stop_that_is_passed_over_is_a_difference() {
    let told = difference(|open| {
        let mut tried = open.port_tried()?;
        if tried.verdict == Verdict::Stopped && tried.setting != open.open {
            tried.setting = open.open;
            tried.last = open.singly(open.open).port_outcome();
        }
        Ok(tried)
    });
    assert!(told.contains("the answers differ: "), "{told}");
}

#[test]
fn a_standard_option_that_stays_wanted_is_a_difference() {
    let told = difference(|open| {
        let standard = open.order.standard & open.open & !open.order.unwanted;
        let wanted = open.order.wanted | standard;
        let order = optbook::Order { wanted, ..open.order };
        open.port_tried()?;
        Open { order, open: open.open & !standard, ..open.clone() }.port_tried()
    });
    assert!(told.contains("the answers differ: "), "{told}");
}

#[test]
fn refusals_in_another_order_are_a_difference() {
    let given = |open: &Open| match refused_in_order(open, [19, 20, 9]) {
        Some(number) => Err(number),
        None => open.port_tried(),
    };
    let tally = run(&mut [Box::new(Made { open: given, check: Check::port_outcome })], 3, LEAST);
    assert!(tally.unwrap().is_some());
    let told = [
        difference(|open| match refused_in_order(open, [20, 19, 9]) {
            Some(number) => Err(number),
            None => open.port_tried(),
        }),
        difference(|open| match refused_in_order(open, [9, 19, 20]) {
            Some(number) => Err(number),
            None => open.port_tried(),
        }),
        difference(|open| match refused_in_order(open, [19, 9, 20]) {
            Some(number) => Err(number),
            None => open.port_tried(),
        }),
    ];
    let due = ["due is `refused 19 0 0 0`", "due is `refused ", "due is `refused 20 0 0 0`"];
    for (told, due) in told.iter().zip(due) {
        assert!(told.contains(due), "{told}");
    }
}

#[test]
fn an_answer_that_single_checks_do_not_give_is_a_difference() {
    let check = |check: &Check| {
        let mut outcome = check.port_outcome();
        if let Some(record) = outcome.records.last_mut() {
            record.struck ^= 1;
        }
        outcome
    };
    let mut made: [Box<dyn UnderTest>; 1] = [Box::new(Made { open: Open::port_tried, check })];
    let told = run(&mut made, 3, LEAST).unwrap_err();
    assert!(told.contains(": made's single checks differ: line "), "{told}");
}

#[test]
fn a_verdict_that_trying_all_choices_does_not_give_is_told() {
    let mut seen = 0;
    for open in (0..100).map(|number| open(3, number)) {
        let Ok(tried) = open.port_tried() else { continue };
        let mut tally = Tally::default();
        assert_eq!(confirm(&open, tried.verdict, &mut tally), Ok(()));
        seen += tally.by_choices;
        for verdict in [Verdict::Always, Verdict::Sometimes, Verdict::Never] {
            if tally.by_choices == 1 && verdict != tried.verdict {
                let told = confirm(&open, verdict, &mut tally).unwrap_err();
                assert!(told.starts_with("the verdict is "), "{told}");
            }
        }
    }
    assert!(seen > 10, "{seen}");
}

#[test]
fn a_kind_that_was_not_seen_is_named() {
    let told = Tally::default().has_all().unwrap_err();
    assert_eq!(told, "no open options with `always` were seen");
    let mut tally = Tally { by_choices: 1, ..Tally::default() };
    tally.endings = endings().into_iter().map(|ending| (ending, 1)).collect();
    assert_eq!(tally.has_all().unwrap_err(), "no open options of the sort `none` were seen");
    tally.sorts = SORTS.iter().map(|(name, _)| (*name, 1)).collect();
    assert_eq!(tally.has_all(), Ok(()));
    tally.endings.remove("stopped 11 at a later setting");
    let due = "no open options with `stopped 11 at a later setting` were seen";
    assert_eq!(tally.has_all().unwrap_err(), due);
}

#[test]
fn a_program_is_asked_no_open_options() {
    let program = Program { path: "./no-such-program".to_string(), page: None };
    assert!(run(&mut [Box::new(program)], 1, LEAST).unwrap().is_none());
}

#[test]
fn questions_go_with_the_books() {
    assert_eq!([beside(0), beside(800), beside(4000)], [400, 400, 2000]);
}
