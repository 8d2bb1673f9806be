//! The comparison of cheapest plants sees each wrong reading of them.

use super::prices::{PRICE, REBATE};
use super::readings::{by_branches, Made, Reading, RIGHT};
use super::*;
use crate::under_test::{Port, Program};
use optbook::Order;
use port::Outcome;
use std::cell::RefCell;
use std::collections::HashMap;

const NO_OPTIMISER: Result<Outside, String> = Err(String::new());

/// What is told of a checker that answers in this way.
fn told_of(cheapest: impl Fn(&Cheapest) -> Quoted + 'static) -> String {
    run(&mut Made::new(cheapest), NO_OPTIMISER, 3, LEAST).unwrap_err()
}

/// What is told of a checker that reads cheapest plants in this way, where no price rises.
fn difference(reading: Reading) -> String {
    let mut made = Made::new(move |asked| reading.quoted(asked));
    let mut told = |number| {
        let asked = cheapest(3, number);
        let quoted = asked.port_quoted();
        compare(&mut made, None, &Run::new(&asked, &quoted), &mut Tally::default()).err()
    };
    (0..LEAST).find_map(&mut told).unwrap()
}

#[test]
fn every_sort_comes_whatever_the_seed_is() {
    for seed in 1..4 {
        let tally = run(&mut Port, NO_OPTIMISER, seed, LEAST).unwrap().unwrap();
        let told = tally.told();
        assert!(told.starts_with("cheapest plants         400   can "), "{told}");
        assert!(tally.tried > 100 && tally.following > 2 * LEAST, "{told}");
        assert!(!tally.checks.contains_key(&Built::Stopped), "{told}");
    }
}

#[test]
fn the_right_reading_is_no_difference() {
    let mut made = Made::new(|asked| RIGHT.quoted(asked));
    assert!(run(&mut made, NO_OPTIMISER, 3, LEAST).unwrap().is_some());
}

#[test]
fn each_wrong_choice_is_a_difference() {
    let wrong = [
        // The greatest word among equals, the first choice, the last, the dearest, or of equals that with the
        // fewest options.
        Reading { is_better: |next, best| next.0 <= best.0, ..RIGHT },
        Reading { is_better: |_, _| false, ..RIGHT },
        Reading { is_better: |_, _| true, ..RIGHT },
        Reading { is_better: |next, best| next.0 > best.0, ..RIGHT },
        Reading {
            is_better: |next, best| (next.0, next.1.count_ones()) < (best.0, best.1.count_ones()),
            ..RIGHT
        },
        // A wanted or a standard option is not paid for, or an unwanted standard one is.
        Reading { paid: |order, choice| choice & !order.wanted, ..RIGHT },
        Reading { paid: |order, choice| choice & (order.wanted | !order.standard), ..RIGHT },
        Reading { paid: |order, choice| choice | order.standard, ..RIGHT },
        // A standard option is free, or is fitted though it is unwanted; an unwanted one is free.
        Reading { wanted: |order| order.wanted, ..RIGHT },
        Reading { wanted: |order| order.wanted | order.standard, ..RIGHT },
        Reading { unwanted: |_| 0, ..RIGHT },
    ];
    for (number, reading) in wrong.into_iter().enumerate() {
        let told = difference(reading);
        assert!(told.contains("the answers differ: made's line 1 is "), "{number}: {told}");
    }
}

#[test]
fn each_wrong_amount_due_is_a_difference() {
    let wrong: [fn(u64, u64) -> u64; 9] = [
        // Halves are rounded down or to the even number, everything is rounded down, or up.
        |total, rebate| (total * (1000 - rebate) + 499) / 1000,
        |total, rebate| {
            let thousandths = total * (1000 - rebate);
            let is_up = thousandths % 1000 > 500 || thousandths % 2000 == 1500;
            thousandths / 1000 + u64::from(is_up)
        },
        |total, rebate| total * (1000 - rebate) / 1000,
        |total, rebate| (total * (1000 - rebate)).div_ceil(1000),
        // The rebate is taken twice or not at all, is rounded itself, or is what is due; a word has 32 bits.
        |total, rebate| ((total * (1000 - rebate) + 500) / 1000 * (1000 - rebate) + 500) / 1000,
        |total, _| total,
        |total, rebate| total - (total * rebate + 500) / 1000,
        |total, rebate| (total * rebate + 500) / 1000,
        |total, rebate| (total * (1000 - rebate) % (1 << 32) + 500) / 1000,
    ];
    for (number, due) in wrong.into_iter().enumerate() {
        let told = difference(Reading { due, ..RIGHT });
        assert!(told.contains("made's line 1 is `can "), "{number}: {told}");
    }
}

/// What is told of a checker that refuses what is refused of another question.
fn told_as(other: fn(&Cheapest) -> Cheapest) -> String {
    told_of(move |asked| match other(asked).by_branches() {
        Err(number) => Err(number),
        Ok(_) => Reading { refused: |_| None, ..RIGHT }.quoted(asked),
    })
}

/// The question with other prices.
fn with_prices(asked: &Cheapest, price: impl Fn(usize, u64) -> u64) -> Cheapest {
    let prices = asked.prices.iter().enumerate().map(|(index, of)| price(index, *of));
    Cheapest { prices: prices.collect(), ..asked.clone() }
}

/// The question with another rebate.
fn with_rebate(asked: &Cheapest, rebate: fn(u64) -> u64) -> Cheapest {
    Cheapest { rebate: rebate(asked.rebate), ..asked.clone() }
}

#[test]
fn each_wrong_range_is_a_difference() {
    let wrong: [fn(&Cheapest) -> Cheapest; 12] = [
        // A price of 10,000,001 is taken, or one of 10,000,000 is refused, or one by its last 32 bits.
        |asked| with_prices(asked, |_, price| if price == PRICE + 1 { PRICE } else { price }),
        |asked| with_prices(asked, |_, price| if price == PRICE { PRICE + 1 } else { price }),
        |asked| with_prices(asked, |_, price| price % (1 << 32)),
        // The first price, the last one or that of an unwanted option is not looked at.
        |asked| with_prices(asked, |index, price| if index == 0 { 0 } else { price }),
        |asked| {
            let last = asked.options().wrapping_sub(1);
            with_prices(asked, |index, price| if index == last { 0 } else { price })
        },
        |asked| {
            let unwanted = asked.order.unwanted;
            let is_unwanted = |index: usize| index < 64 && unwanted >> index & 1 == 1;
            with_prices(asked, |index, price| if is_unwanted(index) { 0 } else { price })
        },
        // Prices above n are looked at, or one too few or none are taken.
        |asked| {
            let highest = asked.prices.iter().copied().max().unwrap_or(0);
            with_prices(asked, |index, price| if index == 0 { highest } else { price })
        },
        |asked| Cheapest { prices: [&asked.prices[..], &[0]].concat(), ..asked.clone() },
        |asked| match asked.prices.is_empty() {
            true => Cheapest { prices: vec![0; 64], ..asked.clone() },
            false => asked.clone(),
        },
        // A rebate of 1,001 is taken, or one of 1,000 is refused, or one by its last 32 bits.
        |asked| with_rebate(asked, |rebate| if rebate == 1001 { 1000 } else { rebate }),
        |asked| with_rebate(asked, |rebate| if rebate == 1000 { 1001 } else { rebate }),
        |asked| with_rebate(asked, |rebate| rebate % (1 << 32)),
    ];
    for (number, other) in wrong.into_iter().enumerate() {
        let told = told_as(other);
        assert!(told.contains("`refused 18`"), "{number}: {told}");
    }
}

#[test]
fn other_numbers_of_free_options_are_a_difference() {
    let twenty = told_of(|asked| match asked.by_branches() {
        Ok(_) if asked.free().len() == 20 => Err(17),
        quoted => quoted,
    });
    assert!(twenty.contains("made's line 1 is `refused 17`, due is `c"), "{twenty}");
    let twenty_one = told_of(|asked| match asked.by_branches() {
        Err(17) if asked.free().len() == 21 => Ok(None),
        quoted => quoted,
    });
    assert!(twenty_one.contains("made's line 1 is `cannot`, due is `refused 17`"), "{twenty_one}");
}

#[test]
fn a_refusal_out_of_its_order_is_a_difference() {
    fn has_bad_prices(asked: &Cheapest) -> bool {
        let read = asked.prices.iter().take(asked.options());
        asked.prices.len() < asked.options() || read.max() > Some(&PRICE) || asked.rebate > REBATE
    }
    fn has_too_many(asked: &Cheapest) -> bool {
        asked.free().len() > 20
    }
    type Early = (u32, u32, fn(&Cheapest) -> bool);
    let early: [Early; 9] = [
        (18, 17, has_bad_prices),
        (18, 12, has_bad_prices),
        (18, 8, has_bad_prices),
        (18, 7, has_bad_prices),
        (18, 5, has_bad_prices),
        (17, 12, has_too_many),
        (17, 8, has_too_many),
        (17, 7, has_too_many),
        (8, 5, |asked| asked.order.wanted & asked.order.unwanted != 0),
    ];
    for (said, due, is_such) in early {
        let told = told_of(move |asked| match asked.by_branches() {
            Err(number) if number == due && is_such(asked) => Err(said),
            quoted => quoted,
        });
        let line = format!("made's line 1 is `refused {said}`, due is `refused {due}`");
        assert!(told.contains(&line), "{told}");
    }
}

#[test]
fn a_check_that_does_not_go_with_the_answer_is_told() {
    let told = |check| {
        let mut made = Made { check, ..by_branches() };
        run(&mut made, NO_OPTIMISER, 3, LEAST).unwrap_err()
    };
    let cannot = told(|check| Outcome { ending: port::CANNOT, ..check.port_outcome() });
    assert!(
        cannot.contains("it is `can`, and made's check of the order is `cannot 0 "),
        "{cannot}"
    );
    let can = told(|check| Outcome { ending: port::CAN, ..check.port_outcome() });
    assert!(can.contains("it is `cannot`, and made's check of the order is `can 0 "), "{can}");
}

/// The checker is right where a book comes for the first time.
#[test]
fn a_wrong_answer_to_what_follows_is_told() {
    let last = RefCell::new(Vec::new());
    let told = told_of(move |asked| match last.replace(asked.book.clone()) == asked.book {
        true => Err(99),
        false => asked.by_branches(),
    });
    assert!(told.contains(": with no rebate the answers differ: made's line 1 is "), "{told}");
    assert!(told.contains("\nrebate 0\nwhich follows from\ncheapest\nbook "), "{told}");
}

#[test]
fn an_answer_that_all_choices_do_not_give_is_told() {
    let book = Book { options: 2, rules: Vec::new() };
    let order = Order { wanted: 2, ..Order::default() };
    let asked = Cheapest { book: vec![2, 0, 0], order, prices: vec![1, 3], rebate: 500 };
    let of =
        |total, due, choice| is_least_of_all(&asked, &book, Some(Quote { total, due, choice }));
    assert_eq!(of(3, 2, 2), Ok(true));
    let due = Err("all choices give `can 3 2 2`".to_string());
    for wrong in [of(4, 2, 2), of(3, 1, 2), of(3, 2, 3), is_least_of_all(&asked, &book, None)] {
        assert_eq!(wrong, due);
    }
    let larger = Book { options: 13, ..book };
    assert_eq!(is_least_of_all(&asked, &larger, None), Ok(false));
}

/// What an optimiser would say to what it is asked in a run of this seed: the right totals and choices.
fn known(seed: u64) -> HashMap<String, Option<u64>> {
    let mut known = HashMap::new();
    for asked in (0..LEAST).map(|number| cheapest(seed, number)) {
        let (Ok(quote), Some(book)) = (asked.by_branches(), asked.whole_book()) else { continue };
        known.insert(for_the_total(&asked, &book), quote.map(|quote| quote.total));
        if let Some(Quote { total, choice, .. }) = quote {
            let bits = asked.free().into_iter().zip(0u32..);
            let fitted = bits.filter(|(option, _)| choice & option != 0);
            let bits = Some(fitted.map(|(_, bit)| 1 << bit).sum());
            known.insert(for_the_choice(&asked, &book, total), bits);
        }
    }
    known
}

#[test]
fn an_outside_optimiser_confirms_or_ends_the_run() {
    let known = known(3);
    let right = |text: &str| Ok(known[text]);
    let tally = run(&mut by_branches(), Ok(&right), 3, LEAST).unwrap().unwrap();
    assert_eq!(tally.optimised.values().sum::<usize>(), OPTIMISED);
    assert!(tally.told().contains("\ncheapest plants by the outside optimiser too: can by the "));
    let asks_for_choice = |text: &str| text.lines().last().is_some_and(|line| line.contains(" = "));
    let told = |other: &dyn Fn(&str) -> Result<Option<u64>, String>| {
        run(&mut by_branches(), Ok(other), 3, LEAST).unwrap_err()
    };
    let dearer = told(&|text| Ok(known[text].map(|sum| sum + u64::from(!asks_for_choice(text)))));
    assert!(dearer.contains(": the outside optimiser's total is "), "{dearer}");
    let none = told(&|text| Ok(known[text].filter(|_| asks_for_choice(text))));
    assert!(none.contains(": the outside optimiser's total is none\ncheapest\n"), "{none}");
    let other = told(&|text| Ok(known[text].map(|sum| sum ^ u64::from(asks_for_choice(text)))));
    assert!(other.contains(": the outside optimiser's choice is "), "{other}");
    let missing = told(&|_| Err("no optimiser".to_string()));
    assert!(missing.contains(": no optimiser\ncheapest\n"), "{missing}");
}

#[test]
fn a_missing_optimiser_is_told_and_no_difference() {
    let missing = "no outside optimiser is installed (looked for: clasp)".to_string();
    let tally = run(&mut by_branches(), Err(missing.clone()), 3, LEAST).unwrap().unwrap();
    let due = format!("\ncheapest plants by the outside optimiser too: none, {missing}\n");
    assert!(tally.told().ends_with(&due), "{}", tally.told());
}

#[test]
fn a_sort_that_was_not_seen_is_named() {
    let told = |tally: &Tally| tally.has_all().unwrap_err();
    let due = |name: &str| format!("no cheapest plant with `{name}` was seen");
    assert_eq!(told(&Tally::default()), due("can"));
    let mut tally = run(&mut by_branches(), NO_OPTIMISER, 3, LEAST).unwrap().unwrap();
    tally.no_optimiser = None;
    assert_eq!(told(&tally), due("can by the optimiser"));
    tally.moved = moved::Tally::default();
    assert_eq!(told(&tally), due("all of a rise"));
    tally.checks.remove(&Built::Cannot);
    assert_eq!(told(&tally), due("cannot and none"));
    tally.sorts.remove("a half");
    assert_eq!(told(&tally), due("a half"));
    tally.numbers.remove("20 free, can");
    assert_eq!(told(&tally), due("20 free, can"));
    tally.endings.remove("refused 17");
    assert_eq!(told(&tally), due("refused 17"));
}

#[test]
fn a_program_is_asked_for_no_cheapest_plant() {
    let mut program = Program { path: "./no-such-program".to_string(), page: None };
    assert!(run(&mut program, NO_OPTIMISER, 1, LEAST).unwrap().is_none());
}

#[test]
fn questions_go_with_the_books() {
    assert_eq!([beside(0), beside(800), beside(4000)], [400, 400, 2000]);
}
