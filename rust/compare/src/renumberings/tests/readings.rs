//! Wrong readings of a renumbering.

use super::{broken, made, run_made};
use crate::question::Check;
use crate::renumberings::meaning::Sentence;
use crate::renumberings::readings::{Reading, RIGHT};
use optbook::{Order, Rule};
use port::Renumbering;

/// A renumbering with the same numbers, which reverses these options.
fn reversing(renumbering: &Renumbering, reversed: u64) -> Renumbering {
    Renumbering::new(renumbering.numbers().to_vec(), reversed).unwrap()
}

/// A renumbering that reverses the options whose new numbers are those of the reversed ones.
fn reversing_after(renumbering: &Renumbering) -> Renumbering {
    reversing(renumbering, renumbering.back().set(renumbering.reversed()))
}

/// The same with the old numbers.
fn with_old_numbers(renumbering: &Renumbering) -> Renumbering {
    let numbers = (1..=renumbering.numbers().len() as u32).collect();
    Renumbering::new(numbers, renumbering.reversed()).unwrap()
}

/// Option 2 becomes option 1, so that two options have one number.
fn merged(set: u64) -> u64 {
    set & !2 | set >> 1 & 1
}

fn merged_order(order: Order) -> Order {
    let Order { wanted, unwanted, standard } = order;
    Order { wanted: merged(wanted), unwanted: merged(unwanted), standard: merged(standard) }
}

/// The wishes are reversed, and the standard options stay standard.
fn standard_stays(renumbering: &Renumbering, order: Order) -> Order {
    let wishes = (RIGHT.order)(renumbering, Order { standard: 0, ..order });
    Order { standard: renumbering.set(order.standard), ..wishes }
}

/// A wrong reading breaks these sentences over a run, and the run ends with one of them.
fn assert_broken(reading: Reading, due: &[Sentence]) {
    assert_eq!(broken(Check::port_outcome, reading), due);
    let told = run_made(made(Check::port_outcome), reading).unwrap_err();
    let (_, words) = told.split_once(" there, and this is broken: ").expect(&told);
    let words = words.lines().next().unwrap_or_default();
    assert!(due.iter().any(|sentence| words.starts_with(sentence.words())), "{told}");
}

#[test]
fn rules_that_are_reversed_without_the_order_are_told() {
    let reading = Reading {
        order: |renumbering, order| (RIGHT.order)(&reversing(renumbering, 0), order),
        with_standard: |renumbering, order| {
            (RIGHT.with_standard)(&reversing(renumbering, 0), order)
        },
        ..RIGHT
    };
    assert_broken(reading, &[Sentence::Verdicts, Sentence::Choices]);
}

#[test]
fn an_order_that_is_reversed_without_the_rules_is_told() {
    let reading = Reading {
        rule: |renumbering, rule| (RIGHT.rule)(&reversing(renumbering, 0), rule),
        ..RIGHT
    };
    assert_broken(reading, &[Sentence::Verdicts, Sentence::Choices]);
}

#[test]
fn an_order_that_keeps_its_numbers_is_told() {
    let reading = Reading {
        order: |renumbering, order| (RIGHT.order)(&with_old_numbers(renumbering), order),
        with_standard: |renumbering, order| {
            (RIGHT.with_standard)(&with_old_numbers(renumbering), order)
        },
        ..RIGHT
    };
    assert_broken(reading, &[Sentence::Verdicts, Sentence::Back, Sentence::Choices]);
}

#[test]
fn rules_that_are_reversed_under_the_new_numbers_are_told() {
    let reading = Reading {
        rule: |renumbering, rule| (RIGHT.rule)(&reversing_after(renumbering), rule),
        ..RIGHT
    };
    assert_broken(reading, &[Sentence::Verdicts, Sentence::Back, Sentence::Choices]);
}

#[test]
fn standard_options_that_are_not_reversed_are_told() {
    let order = |renumbering: &Renumbering, order| standard_stays(renumbering, order).completed();
    let reading = Reading { order, with_standard: standard_stays, ..RIGHT };
    assert_broken(reading, &[Sentence::Verdicts, Sentence::Back, Sentence::Choices]);
    let reading = Reading { with_standard: standard_stays, ..RIGHT };
    let due = [Sentence::Verdicts, Sentence::Handed, Sentence::Back, Sentence::Choices];
    assert_broken(reading, &due);
}

/// An option may then be in both words of a rule or of an order, which is refused.
#[test]
fn two_options_with_one_number_are_told() {
    let reading = Reading {
        rule: |renumbering, rule| {
            let Rule { fitted, left_out } = (RIGHT.rule)(renumbering, rule);
            Rule { fitted: merged(fitted), left_out: merged(left_out) }
        },
        order: |renumbering, order| merged_order((RIGHT.order)(renumbering, order)),
        with_standard: |renumbering, order| merged_order((RIGHT.with_standard)(renumbering, order)),
        choice: |renumbering, choice| merged(renumbering.choice(choice)),
        ..RIGHT
    };
    let due = [
        Sentence::Accepted,
        Sentence::Verdicts,
        Sentence::Unchanged,
        Sentence::Handed,
        Sentence::Back,
        Sentence::Choices,
        Sentence::Apart,
    ];
    assert_broken(reading, &due);
    let choice = |renumbering: &Renumbering, choice| merged(renumbering.choice(choice));
    assert_broken(Reading { choice, ..RIGHT }, &[Sentence::Choices, Sentence::Apart]);
}

#[test]
fn a_choice_that_is_not_reversed_is_told() {
    assert_broken(Reading { choice: Renumbering::set, ..RIGHT }, &[Sentence::Choices]);
    let choice = |renumbering: &Renumbering, choice| reversing_after(renumbering).choice(choice);
    assert_broken(Reading { choice, ..RIGHT }, &[Sentence::Choices]);
}

#[test]
fn a_choice_of_options_that_there_are_not_is_told() {
    let choice = |renumbering: &Renumbering, choice| renumbering.choice(choice) | 1 << 63;
    let broken = broken(Check::port_outcome, Reading { choice, ..RIGHT });
    assert_eq!(broken, [Sentence::Apart]);
}

#[test]
fn a_way_back_that_reverses_under_the_old_numbers_is_told() {
    let back = |renumbering: &Renumbering| reversing(&renumbering.back(), renumbering.reversed());
    assert_broken(Reading { back, ..RIGHT }, &[Sentence::Back]);
}
