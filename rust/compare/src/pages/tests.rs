//! The comparison of pages sees each wrong reading of them, and so does reading them back alone.

use super::*;
use crate::question::Check;
use crate::under_test::{Port, Program};
use port::Rule;
use std::sync::LazyLock;

/// A checker made of a function from an outcome to its page, and one for a check.
struct Made {
    page: fn(&Outcome) -> String,
    check: fn(&Check) -> Outcome,
    takes: fn(&Question) -> bool,
}

impl UnderTest for Made {
    fn name(&self) -> String {
        "made".to_string()
    }

    fn takes(&self, question: &Question) -> bool {
        (self.takes)(question)
    }

    fn printed(&mut self, question: &Question) -> Result<String, String> {
        match question {
            Question::Check(check) => Ok((self.check)(check).to_string()),
            Question::Page(page) => Ok((self.page)(&page.check().port_outcome())),
            _ => Err("neither a check nor a page".to_string()),
        }
    }
}

fn made(page: fn(&Outcome) -> String) -> Box<dyn UnderTest> {
    Box::new(Made { page, check: Check::port_outcome, takes: |_| true })
}

/// Generated pages, and their outcomes.
static PAGES: LazyLock<Vec<(Page, Outcome)>> = LazyLock::new(|| {
    let pages = (0..LEAST).map(|number| page(3, number));
    pages.map(|page| (page.clone(), page.check().port_outcome())).collect()
});

/// The entries of a rule: each option, and whether it is left out.
fn listed(rule: Rule) -> Vec<(u32, bool)> {
    let has = |word: u64, option: u32| word >> (option - 1) & 1 == 1;
    let named = (1..=64).filter(|&option| has(rule.fitted | rule.left_out, option));
    named.map(|option| (option, has(rule.left_out, option))).collect()
}

fn entry((option, is_left_out): (u32, bool)) -> String {
    format!("{}{option}", if is_left_out { "-" } else { "" })
}

/// A page whose rules have the text that this gives for their entries and for their words.
fn with_text(outcome: &Outcome, text: impl Fn(&[(u32, bool)], String) -> String) -> String {
    let (word, number) = outcome.ending.named();
    let (branchings, rules) = (outcome.branchings, outcome.derived.len());
    let mut page = format!("{word:<10}{number:>10}{branchings:>10}{rules:>10}\n");
    for (index, &rule) in outcome.derived.iter().enumerate() {
        let entries = listed(rule);
        let words: Vec<String> = entries.iter().copied().map(entry).collect();
        page += &format!("{:>4} {:<35}\n", index + 1, text(&entries, words.join(" ")));
    }
    page
}

/// The text of a rule as it is due.
fn due_text(entries: &[(u32, bool)], words: String) -> String {
    match words.len() {
        0 => "none".to_string(),
        1..=35 => words,
        _ => format!("({} entries)", entries.len()),
    }
}

fn as_due(outcome: &Outcome) -> String {
    with_text(outcome, due_text)
}

/// The page as it is due, with each line so changed.
fn with_lines(outcome: &Outcome, change: impl Fn(usize, &str) -> String) -> String {
    let page = as_due(outcome);
    page.lines().enumerate().map(|(index, line)| change(index, line) + "\n").collect()
}

/// A wrong reading of the page, by name.
type Wrong = (&'static str, fn(&Outcome) -> String);

const WRONG: [Wrong; 22] = [
    ("a minus before fitted entries", |outcome| {
        with_text(outcome, |entries, words| {
            let turned: Vec<String> = entries.iter().map(|&(o, left)| entry((o, !left))).collect();
            due_text(entries, if words.len() > 35 { words } else { turned.join(" ") })
        })
    }),
    ("no minus", |outcome| with_text(outcome, |e, words| due_text(e, words).replace('-', ""))),
    ("descending numbers", |outcome| {
        with_text(outcome, |entries, words| {
            let turned: Vec<String> = entries.iter().rev().copied().map(entry).collect();
            due_text(entries, if words.len() > 35 { words } else { turned.join(" ") })
        })
    }),
    ("fitted entries first", |outcome| {
        with_text(outcome, |entries, words| {
            let mut sorted = entries.to_vec();
            sorted.sort_by_key(|&(option, is_left_out)| (is_left_out, option));
            let sorted: Vec<String> = sorted.into_iter().map(entry).collect();
            due_text(entries, if words.len() > 35 { words } else { sorted.join(" ") })
        })
    }),
    ("a count that is one more", |outcome| {
        with_text(outcome, |entries, words| match words.len() {
            36.. => format!("({} entries)", entries.len() + 1),
            _ => due_text(entries, words),
        })
    }),
    ("a count of the fitted entries", |outcome| {
        with_text(outcome, |entries, words| match words.len() {
            36.. => format!("({} entries)", entries.iter().filter(|entry| !entry.1).count()),
            _ => due_text(entries, words),
        })
    }),
    ("35 characters counted", |outcome| {
        with_text(outcome, |entries, words| match words.len() {
            35 => format!("({} entries)", entries.len()),
            _ => due_text(entries, words),
        })
    }),
    ("36 characters cut", |outcome| {
        with_text(outcome, |entries, words| match words.len() {
            36 => words[..35].to_string(),
            _ => due_text(entries, words),
        })
    }),
    ("options from 0", |outcome| {
        with_text(outcome, |entries, words| {
            let lower: Vec<String> =
                entries.iter().map(|&(o, left)| entry((o - 1, left))).collect();
            due_text(entries, if words.len() > 35 { words } else { lower.join(" ") })
        })
    }),
    ("the empty rule as nothing", |outcome| {
        with_text(outcome, |entries, words| match entries.len() {
            0 => String::new(),
            _ => due_text(entries, words),
        })
    }),
    ("the empty rule by its count", |outcome| {
        with_text(outcome, |entries, words| match entries.len() {
            0 => "(0 entries)".to_string(),
            _ => due_text(entries, words),
        })
    }),
    ("option 64 left out of sight", |outcome| {
        with_text(outcome, |entries, words| {
            let seen: Vec<_> = entries.iter().copied().filter(|&(o, _)| o < 64).collect();
            let text = seen.iter().copied().map(entry).collect::<Vec<_>>().join(" ");
            due_text(entries, if words.len() > 35 { words } else { text })
        })
    }),
    ("rules from 0", |outcome| {
        with_lines(outcome, |index, line| match index {
            0 => line.to_string(),
            _ => format!("{:>4}{}", index - 1, &line[4..]),
        })
    }),
    ("the number in the table", |outcome| {
        with_lines(outcome, |index, line| match index {
            0 => line.to_string(),
            _ => format!("{:>4}{}", index + 2, &line[4..]),
        })
    }),
    ("numbers set left", |outcome| {
        with_lines(outcome, |index, line| match index {
            0 => line.to_string(),
            _ => format!("{index:<4}{}", &line[4..]),
        })
    }),
    ("the first line set left", |outcome| {
        let (word, number) = outcome.ending.named();
        let (branchings, rules) = (outcome.branchings, outcome.derived.len());
        let first = format!("{word:<10}{number:<10}{branchings:<10}{rules:<10}");
        with_lines(outcome, |index, line| if index == 0 { first.clone() } else { line.to_string() })
    }),
    ("records for rules", |outcome| {
        let (word, number) = outcome.ending.named();
        let (branchings, records) = (outcome.branchings, outcome.records.len());
        let first = format!("{word:<10}{number:>10}{branchings:>10}{records:>10}");
        with_lines(outcome, |index, line| if index == 0 { first.clone() } else { line.to_string() })
    }),
    ("no blanks at the end", |outcome| with_lines(outcome, |_, line| line.trim_end().to_string())),
    ("a blank too many", |outcome| with_lines(outcome, |_, line| format!("{line} "))),
    ("no last line feed", |outcome| as_due(outcome).trim_end_matches('\n').to_string()),
    ("one rule too few", |outcome| {
        let mut fewer = outcome.clone();
        fewer.derived.pop();
        let page = as_due(&fewer);
        format!("{}{}", &as_due(outcome)[..41], &page[41..])
    }),
    ("a stop without its rules", |outcome| match outcome.ending {
        Ending::Stopped(10) => as_due(outcome)[..41].to_string(),
        _ => as_due(outcome),
    }),
];

#[test]
fn every_kind_is_seen_and_counted_whatever_the_seed_is() {
    for seed in 1..4 {
        let tally = run(&mut [Box::new(Port)], seed, beside(0)).unwrap().unwrap();
        assert_eq!((tally.pages, tally.read_back, tally.not_taken), (400, 400, 0));
        assert_eq!(tally.endings.values().sum::<usize>(), 400);
        let told = tally.told();
        assert!(told.starts_with("pages                   400   can "), "{told}");
        assert!(told.ends_with("\npages that say what the outcome does: 400\n"), "{told}");
    }
}

/// The page as it should be gives no difference, so that those below come from what is changed.
#[test]
fn a_page_made_anew_differs_nowhere() {
    assert!(run(&mut [made(as_due)], 3, LEAST).unwrap().is_some());
}

#[test]
fn each_wrong_reading_is_a_difference() {
    for (name, wrong) in WRONG {
        let told = run(&mut [made(wrong)], 3, LEAST).err().unwrap_or(name.to_string());
        assert!(told.contains(": the pages differ: made's line "), "{told}");
    }
}

#[test]
fn each_wrong_reading_is_seen_without_the_ports_page() {
    let agree = |page: fn(&Outcome) -> String| {
        let mut outcomes = PAGES.iter().map(|(_, outcome)| outcome);
        outcomes.try_for_each(|outcome| read_back::agrees(&page(outcome), &outcome.to_string()))
    };
    assert_eq!(agree(as_due), Ok(()));
    for (name, wrong) in WRONG {
        assert!(agree(wrong).is_err(), "{name}");
    }
}

#[test]
fn a_page_that_the_own_outcome_does_not_have_is_told() {
    let check = |check: &Check| {
        let mut outcome = check.port_outcome();
        if let Some(rule) = outcome.derived.last_mut() {
            rule.fitted ^= 1;
        }
        outcome
    };
    let mut tested: [Box<dyn UnderTest>; 1] =
        [Box::new(Made { page: as_due, check, takes: |_| true })];
    let told = run(&mut tested, 3, LEAST).unwrap_err();
    assert!(told.contains(": made's page is not that of its outcome: line `"), "{told}");
}

#[test]
fn the_first_difference_is_told_with_the_question() {
    let told = run(&mut [made(|_| String::new())], 3, LEAST).unwrap_err();
    let due = "page 0 of seed 3: the pages differ: made's line 1 is nothing, due is `";
    assert!(told.starts_with(due), "{told}");
    assert!(told.contains("`\nfiled\nbook "), "{told}");
    let wrong = |outcome: &Outcome| match outcome.derived.len() {
        2048 => String::new(),
        _ => as_due(outcome),
    };
    let told = run(&mut [made(wrong)], 3, LEAST).unwrap_err();
    assert!(told.contains("`\npage 000000"), "{}", &told[..200]);
}

/// A checker that takes the program's allowance alone, as a program does, is asked with it.
#[test]
fn a_program_is_asked_with_its_own_allowance_and_short_orders() {
    let takes = |question: &Question| match question {
        Question::Check(check) => check.is_of_program(),
        Question::Page(page) => page.is_of_program(),
        _ => false,
    };
    let check = |check: &Check| {
        assert!(check.is_of_program());
        check.port_outcome()
    };
    let mut tested: [Box<dyn UnderTest>; 1] = [Box::new(Made { page: as_due, check, takes })];
    let tally = run(&mut tested, 3, LEAST).unwrap().unwrap();
    assert_eq!((tally.pages, tally.ending("stopped 10")), (400, 0));
    assert!(tally.sort("a short order") > 0);
}

/// The library takes every allowance and no short order.
#[test]
fn short_orders_are_counted_where_they_are_not_taken() {
    let takes = |question: &Question| match question {
        Question::Check(check) => check.parts().is_some(),
        Question::Page(page) => page.parts().is_some(),
        _ => false,
    };
    let check = Check::port_outcome;
    let mut tested: [Box<dyn UnderTest>; 1] = [Box::new(Made { page: as_due, check, takes })];
    let tally = run(&mut tested, 3, LEAST).unwrap().unwrap();
    assert!(tally.not_taken > 0);
    assert_eq!(tally.pages + tally.not_taken, 400);
    let last = format!("pages that the checker has no way to take: {}\n", tally.not_taken);
    assert!(tally.told().ends_with(&last), "{}", tally.told());
}

#[test]
fn pages_of_each_sort_come_to_each_checker() {
    let wrong = |outcome: &Outcome| match outcome.derived.first() {
        Some(rule) if read_back::entries(*rule) == 63 => String::new(),
        _ => as_due(outcome),
    };
    for position in 0..2 {
        let mut tested: [Box<dyn UnderTest>; 2] = [Box::new(Port), Box::new(Port)];
        tested[position] = made(wrong);
        let told = run(&mut tested, 3, LEAST).unwrap_err();
        assert!(told.contains(": made's line 1 is nothing, due is `"), "{told}");
    }
}

#[test]
fn a_kind_that_was_not_seen_is_named() {
    let told = Tally::default().has_all(|_| true).unwrap_err();
    assert_eq!(told, "no page with ending `can` was seen");
    let mut tally = Tally {
        endings: ENDINGS.iter().map(|(ending, _)| (ending_name(*ending), 1)).collect(),
        ..Tally::default()
    };
    assert_eq!(tally.has_all(|_| true).unwrap_err(), "no page with sort `no rule` was seen");
    tally.sorts = SORTS.iter().map(|(name, _, _)| (*name, 1)).collect();
    assert_eq!(tally.has_all(|_| true), Ok(()));
    tally.sorts.remove("a short order");
    let due = "no page with sort `a short order` was seen";
    assert_eq!(tally.has_all(|_| true).unwrap_err(), due);
    assert_eq!(tally.has_all(|needs| needs != Needs::ShortOrders), Ok(()));
    tally.endings.remove("stopped 10");
    let due = "no page with ending `stopped 10` was seen";
    assert_eq!(tally.has_all(|needs| needs != Needs::ShortOrders).unwrap_err(), due);
    assert_eq!(tally.has_all(|needs| needs == Needs::Nothing), Ok(()));
}

#[test]
fn without_a_program_that_prints_pages_none_is_asked() {
    let program = Program { path: "./no-such-program".to_string(), page: None };
    assert!(run(&mut [Box::new(program)], 1, LEAST).unwrap().is_none());
}

#[test]
fn pages_go_with_the_books() {
    assert_eq!([beside(0), beside(800), beside(4000)], [400, 400, 2000]);
}
