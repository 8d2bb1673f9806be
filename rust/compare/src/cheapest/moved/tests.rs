//! The sentences on a price that rises see the wrong readings of cheapest plants that they speak of, each alone.

use super::*;
use crate::cheapest::meaning::list_total;
use crate::cheapest::readings::{by_branches, Found, Made, Reading, RIGHT};
use crate::cheapest::{cheapest, run as run_all, LEAST};
use crate::under_test::Says;
use std::cell::RefCell;
use std::collections::{BTreeSet, HashMap};

/// Shows the rises of a run of this seed one after the other, up to the first difference.
fn each_rise(
    seed: u64,
    mut look: impl FnMut(&Run, Rise) -> Result<(), String>,
) -> Result<(), String> {
    for number in 0..LEAST {
        let asked = cheapest(seed, number);
        let quoted = asked.by_branches();
        let run = Run::new(&asked, &quoted);
        rises(seed, number, &run).into_iter().try_for_each(|rise| look(&run, rise))?;
    }
    Ok(())
}

/// A checker that changes the right quote in this way.
fn changed(change: fn(&Cheapest, Quote) -> Quote) -> Made {
    Made::new(move |asked| Ok(asked.by_branches()?.map(|quote| change(asked, quote))))
}

/// A checker that answers by the question and by the same at the prices at which its book and order came first.
fn remembering(quoted: fn(&Cheapest, &Cheapest) -> Quoted) -> Made {
    let first = RefCell::new(HashMap::new());
    Made::new(move |asked| {
        let mut first = first.borrow_mut();
        let came = first.entry((asked.book.clone(), asked.order.words()));
        let prices = came.or_insert_with(|| asked.prices.clone()).clone();
        quoted(asked, &Cheapest { prices, ..asked.clone() })
    })
}

#[test]
fn right_answers_break_no_sentence() {
    for seed in 1..4 {
        let right = Made::new(|asked| RIGHT.quoted(asked));
        let mut checkers = [right, by_branches()];
        let held = each_rise(seed, |run, rise| {
            checkers.iter_mut().try_for_each(|made| Moved::new(made, run, rise)?.holds("made"))
        });
        assert_eq!(held, Ok(()));
    }
}

#[test]
fn both_ways_say_the_same_of_an_option() {
    let (mut made, mut seen) = (by_branches(), [0; 2]);
    let looked = each_rise(3, |run, rise| {
        let LeftOut { by_choices, by_checker } = Moved::new(&mut made, run, rise)?.left_out;
        assert_eq!(by_choices.is_some(), run.free.len() <= FEW);
        if let Some(by_choices) = by_choices {
            assert_eq!(by_choices, by_checker);
            seen[usize::from(by_choices)] += 1;
        }
        Ok(())
    });
    assert_eq!(looked, Ok(()));
    assert!(seen.iter().all(|count| *count > 100), "{seen:?}");
}

/// Over all rises of a run each of these checkers breaks just these sentences.
fn assert_broken<const N: usize>(due: &[Sentence], mut checkers: [Made; N]) {
    let mut broken = vec![BTreeSet::new(); N];
    let looked = each_rise(3, |run, rise| {
        for (made, broken) in checkers.iter_mut().zip(&mut broken) {
            let moved = Moved::new(made, run, rise)?;
            broken.extend(moved.broken().flat_map(|(_, broken)| broken));
        }
        Ok(())
    });
    assert_eq!(looked, Ok(()));
    for (number, broken) in broken.into_iter().enumerate() {
        assert_eq!(broken.into_iter().collect::<Vec<_>>(), due, "{number}");
    }
}

/// Wanted options are counted twice, or all are; or there is a fee of a thousandth.
#[test]
fn wrong_totals_break_the_sentence_on_totals() {
    let wrong = [
        changed(|asked, quote| {
            let wanted = list_total(asked, asked.order.completed().wanted);
            Quote { total: quote.total + wanted, ..quote }
        }),
        changed(|_, quote| Quote { total: 2 * quote.total, ..quote }),
        changed(|_, quote| Quote { total: quote.total + quote.total / 1000, ..quote }),
    ];
    assert_broken(&[Sentence::Total], wrong);
}

/// Where a free option is counted twice, the total moves from one cheapest choice to another, and may fall with a
/// new choice. A total that falls does not rise where it has to.
#[test]
fn totals_that_fall_break_the_sentence_on_choices_too() {
    let wrong = [
        changed(|asked, quote| {
            let first = list_total(asked, quote.choice & 1);
            Quote { total: quote.total + first, ..quote }
        }),
        changed(|_, quote| Quote { total: (1 << 40) - quote.total, ..quote }),
    ];
    assert_broken(&[Sentence::Total, Sentence::LeftOut], wrong);
}

/// The first choice, the last one, and the dearest.
#[test]
fn choices_that_are_not_the_cheapest_break_the_sentence_on_choices() {
    let wrong: [fn(Found, Found) -> bool; 3] =
        [|_, _| false, |_, _| true, |next, best| next.0 > best.0];
    let made = |is_better| {
        let reading = Reading { is_better, ..RIGHT };
        Made::new(move |asked| reading.quoted(asked))
    };
    assert_broken(&[Sentence::LeftOut], wrong.map(made));
}

/// The old choice is handed out at the new price, or is what is due, or the old quote is handed out.
#[test]
fn choices_that_are_kept_break_the_sentence_on_choices() {
    let wrong = [
        remembering(|asked, first| {
            Ok(first.by_branches()?.map(|Quote { choice, .. }| {
                let total = list_total(asked, choice);
                Quote { total, due: (RIGHT.due)(total, asked.rebate), choice }
            }))
        }),
        remembering(|asked, first| {
            let both = asked.by_branches()?.zip(first.by_branches()?);
            Ok(both.map(|(new, old)| {
                let due = (RIGHT.due)(list_total(asked, old.choice), asked.rebate);
                Quote { due, ..new }
            }))
        }),
        remembering(|_, first| first.by_branches()),
    ];
    assert_broken(&[Sentence::LeftOut], wrong);
}

/// There is a fee of a thousandth, or what is due falls.
#[test]
fn wrong_amounts_due_with_no_rebate_break_the_sentence_on_them() {
    let wrong = [
        changed(|asked, quote| match asked.rebate {
            0 => Quote { due: quote.due + quote.total / 1000, ..quote },
            _ => quote,
        }),
        changed(|asked, quote| match asked.rebate {
            0 => Quote { due: (1 << 40) - quote.due, ..quote },
            _ => quote,
        }),
    ];
    assert_broken(&[Sentence::NoRebate], wrong);
}

/// What is left of a cent counts up to three cents, the rebate is added, or what is due falls.
#[test]
fn wrong_amounts_due_with_a_rebate_break_the_sentence_on_them() {
    let wrong = [
        changed(|asked, quote| {
            let thousandths = quote.total * (1000 - asked.rebate);
            Quote { due: thousandths / 1000 + thousandths % 1000 / 250, ..quote }
        }),
        changed(|asked, quote| Quote {
            due: (quote.total * (1000 + asked.rebate) + 500) / 1000,
            ..quote
        }),
        changed(|asked, quote| match asked.rebate {
            0 => quote,
            _ => Quote { due: (1 << 40) - quote.due, ..quote },
        }),
    ];
    assert_broken(&[Sentence::Rebate], wrong);
}

/// The price rises by 3.
#[test]
fn each_limit_may_be_reached_and_not_passed() {
    let broken = |rebate, before: [u64; 2], after: [u64; 2], is_left_out| {
        let asked = Cheapest { rebate, ..cheapest(3, 0) };
        let [before, after] = [before, after].map(|[total, due]| Quote { total, due, choice: 0 });
        Quotes { asked, before, after }.broken(3, is_left_out)
    };
    for (rebate, of_due) in [(0, Sentence::NoRebate), (1, Sentence::Rebate)] {
        let rises = |after| broken(rebate, [10, 10], after, false);
        assert_eq!([rises([11, 10]), rises([13, 13])], [[], []]);
        assert_eq!([rises([14, 10]), rises([10, 10])], [[Sentence::Total], [Sentence::LeftOut]]);
        assert_eq!(rises([9, 10]), [Sentence::Total, Sentence::LeftOut]);
        assert_eq!([rises([13, 14]), rises([13, 9])], [[of_due], [of_due]]);
        let stays = |after| broken(rebate, [10, 10], after, true);
        assert_eq!(stays([10, 10]), []);
        assert_eq!([stays([11, 10]), stays([10, 11])], [[Sentence::LeftOut], [Sentence::LeftOut]]);
    }
    let far = broken(0, [u64::MAX, 0], [0, u64::MAX], false);
    assert_eq!(far, [Sentence::Total, Sentence::LeftOut, Sentence::NoRebate]);
}

/// What is told of a checker by the rises of a run alone.
fn told_of(mut made: Made) -> String {
    let tally = &mut Tally::default();
    each_rise(3, |run, rise| compare(&mut made, run, &[rise], tally)).unwrap_err()
}

fn is_at_other_prices(asked: &Cheapest, first: &Cheapest) -> bool {
    asked.prices[..asked.options()] != first.prices[..asked.options()]
}

#[test]
fn a_checker_that_has_no_quote_at_the_new_price_is_told() {
    let refuses = told_of(remembering(|asked, first| match is_at_other_prices(asked, first) {
        true => Err(18),
        false => asked.by_branches(),
    }));
    let due = ": made says `refused 18`, which is not due\ncheapest\n";
    assert!(refuses.starts_with("the price of option ") && refuses.contains(due), "{refuses}");
    let cannot = told_of(remembering(|asked, first| match is_at_other_prices(asked, first) {
        true => Ok(None),
        false => asked.by_branches(),
    }));
    let due = ": made says `cannot`, which is not due\ncheapest\n";
    assert!(cannot.contains(due) && cannot.ends_with("\nwhich follows from"), "{cannot}");
}

/// The checker is wrong where a book comes with fewer free options than at first.
#[test]
fn a_wrong_answer_without_the_option_is_told() {
    let told = |said: Quoted| {
        let free = RefCell::new(HashMap::new());
        told_of(Made::new(move |asked| {
            let now = asked.free().len();
            let first = *free.borrow_mut().entry(asked.book.clone()).or_insert(now);
            if now < first && first <= FEW {
                said
            } else {
                asked.by_branches()
            }
        }))
    };
    let cannot = told(Ok(None));
    let due =
        ": that a cheapest choice leaves the option out is false by made's total without it, \
               and not by all choices";
    assert!(cannot.ends_with(due), "{cannot}");
    let refuses = told(Err(17));
    let due = ": made says `refused 17`, which is not due\ncheapest\n";
    assert!(refuses.contains(due), "{refuses}");
}

#[test]
fn a_broken_sentence_ends_the_run_with_both_questions() {
    let mut made = remembering(|asked, first| {
        let more = u64::from(is_at_other_prices(asked, first)) << 40;
        Ok(asked.by_branches()?.map(|quote| Quote { total: quote.total + more, ..quote }))
    });
    let told = run_all(&mut made, Err(String::new()), 3, LEAST).unwrap_err();
    let lines: Vec<&str> = told.lines().collect();
    let parts = [
        "cheapest ",
        " of seed 3: the price of option ",
        " rises from ",
        " to ",
        ": made says `can ",
        "` before and `can 10",
        "` after, and so this is broken: ",
        Sentence::Total.words(),
    ];
    let mut rest = lines[0];
    for part in parts {
        rest = rest.split_once(part).unwrap_or_else(|| panic!("no `{part}` in {told}")).1;
    }
    let [before, after, own] = [1, 7, 13].map(|from| &lines[from..from + 5]);
    assert_eq!([lines[6], lines[12]], ["and at the new price", "which follow from"]);
    assert!(before == own && before[0] == "cheapest" && lines.len() == 18, "{told}");
    let other: Vec<usize> = (0..5).filter(|&line| after[line] != before[line]).collect();
    assert_eq!(other, [3], "{told}");
}

#[test]
fn words_that_are_no_answer_are_told() {
    let told = said(&mut Says("can 1 2\n"), &cheapest(3, 0)).unwrap_err();
    assert_eq!(told, "`can 1 2\n` is no answer");
}
