//! The comparison of turns sees each wrong reading of them.

use super::*;
use crate::question::{Check, Question};
use crate::under_test::{Port, Program};
use optbook::bytes::{input_bytes, read_input};
use optbook::{Book, Order};
use port::{Outcome, Response};

/// A checker made of a function for turns and one for a check.
struct Made {
    turns: Box<dyn Fn(&Turns) -> Settled>,
    check: fn(&Check) -> Outcome,
}

impl UnderTest for Made {
    fn name(&self) -> String {
        "made".to_string()
    }

    fn takes(&self, question: &Question) -> bool {
        matches!(question, Question::Check(_) | Question::Turns(_))
    }

    fn printed(&mut self, question: &Question) -> Result<String, String> {
        match question {
            Question::Check(check) => Ok((self.check)(check).to_string()),
            Question::Turns(turns) => Ok(settled_text(&(self.turns)(turns))),
            _ => Err("neither a check nor turns".to_string()),
        }
    }
}

/// How turns may be read: what is refused, which options are free and how many may be, which others are fitted,
/// the sequence of options and of those who settle them, what each has to win, which answer comes first, and
/// from how many free options on there is one.
#[derive(Clone, Copy)]
struct Reading {
    refused: fn(&Turns) -> Option<u32>,
    most: usize,
    is_free: fn(Order, u64) -> bool,
    wanted: fn(Order) -> u64,
    descending: bool,
    planner_first: bool,
    buyer: fn(bool, bool) -> bool,
    planner: fn(bool, bool) -> bool,
    fitted_first: bool,
    answers_from: usize,
}

const RIGHT: Reading = Reading {
    refused: |turns| turns.port_settled().err(),
    most: 12,
    is_free: |order, option| {
        let Order { wanted, unwanted, .. } = order.completed();
        (wanted | unwanted) & option == 0
    },
    wanted: |order| order.completed().wanted,
    descending: false,
    planner_first: false,
    buyer: |out, fitted| out && fitted,
    planner: |out, fitted| out || fitted,
    fitted_first: false,
    answers_from: 2,
};

impl Reading {
    fn settled(&self, turns: &Turns) -> Settled {
        if let Some(number) = (self.refused)(turns) {
            return Err(number);
        }
        let (order, book) = read_input(&input_bytes(turns.order, &turns.book)).unwrap();
        let options = (0..book.options).map(optbook::option);
        let mut free: Vec<u64> = options.filter(|option| (self.is_free)(order, *option)).collect();
        if free.len() > self.most {
            return Err(16);
        }
        if self.descending {
            free.reverse();
        }
        let wanted = (self.wanted)(order);
        let is_won = |said: u64, settled: usize| self.is_won(&book, &free, settled, wanted | said);
        let answer = |said: u64| {
            if free.len() < self.answers_from {
                return None;
            }
            let second = free.get(1).copied().unwrap_or_default();
            let [out, fitted] = [0, second].map(|second| is_won(said | second, 2));
            match (out, fitted) {
                (true, true) if self.fitted_first => Some(Response::Fitted),
                (true, _) => Some(Response::Out),
                (false, true) => Some(Response::Fitted),
                (false, false) => None,
            }
        };
        let first = free.first().copied().unwrap_or_default();
        Ok(port::Turns { forced: is_won(0, 0), to_out: answer(0), to_fitted: answer(first) })
    }

    /// The planner can force it where so many free options are settled, and these options are fitted.
    fn is_won(&self, book: &Book, free: &[u64], settled: usize, fitted: u64) -> bool {
        let Some(option) = free.get(settled) else {
            return book.rules.iter().all(|rule| rule.is_kept_by(fitted));
        };
        let is_buyers = settled.is_multiple_of(2) != self.planner_first;
        let [out, fitted] =
            [0, *option].map(|said| self.is_won(book, free, settled + 1, fitted | said));
        match is_buyers {
            true => (self.buyer)(out, fitted),
            false => (self.planner)(out, fitted),
        }
    }
}

/// A solver for the tests, which tries both ways of each variable in the sequence of the quantifiers.
fn solver(text: &str) -> Result<bool, String> {
    let words = |line: &str| {
        let (mut trues, mut falses) = (0u64, 0u64);
        for literal in line.split(' ').filter_map(|word| word.parse::<i32>().ok()) {
            match literal {
                1.. => trues |= 1 << (literal - 1),
                0 => (),
                _ => falses |= 1 << (-literal - 1),
            }
        }
        (trues, falses)
    };
    let (mut prefix, mut clauses) = (Vec::new(), Vec::new());
    for line in text.lines().skip(1) {
        match line.split(' ').next() {
            Some(quantifier @ ("a" | "e")) => prefix.push((quantifier == "a", words(line).0)),
            _ => clauses.push(words(line)),
        }
    }
    Ok(is_true(&prefix, &clauses, 0, 0))
}

/// The clauses hold after this prefix, with these variables true and these false.
fn is_true(prefix: &[(bool, u64)], clauses: &[(u64, u64)], trues: u64, falses: u64) -> bool {
    let is_broken = |clause: &(u64, u64)| clause.0 & !falses == 0 && clause.1 & !trues == 0;
    if clauses.iter().any(is_broken) {
        return false;
    }
    let Some(((for_all, variable), rest)) = prefix.split_first() else { return true };
    let mut sides = [(trues, falses | variable), (trues | variable, falses)].into_iter();
    let holds = |(trues, falses)| is_true(rest, clauses, trues, falses);
    match for_all {
        true => sides.all(holds),
        false => sides.any(holds),
    }
}

const NO_SOLVER: Result<Outside, String> = Err(String::new());

/// What is told of a checker that reads turns in this way.
fn difference(reading: Reading) -> String {
    let turns = Box::new(move |turns: &Turns| reading.settled(turns));
    let mut made = Made { turns, check: Check::port_outcome };
    run(&mut made, NO_SOLVER, 3, LEAST).unwrap_err()
}

#[test]
fn every_sort_comes_whatever_the_seed_is() {
    for seed in 1..4 {
        let tally = run(&mut Port, NO_SOLVER, seed, LEAST).unwrap().unwrap();
        let told = tally.told();
        assert!(told.starts_with("turns                   400   forced out out "), "{told}");
        assert!(tally.after_two > LEAST, "{told}");
        assert!(!tally.checks.contains_key(&Built::Stopped), "{told}");
    }
}

#[test]
fn the_right_reading_is_no_difference_and_a_solver_confirms_it() {
    let turns = Box::new(|turns: &Turns| RIGHT.settled(turns));
    let mut made = Made { turns, check: Check::port_outcome };
    let tally = run(&mut made, Ok(&solver), 3, LEAST).unwrap().unwrap();
    assert_eq!(
        tally.solved.values().sum::<usize>(),
        tally.checks.values().sum::<usize>().min(SOLVED)
    );
    assert_eq!(tally.solved_after_two, SOLVED_AFTER_TWO);
    let told = tally.told();
    assert!(
        told.contains("\nturns by the solver of quantified clauses too: forced by the solver "),
        "{told}"
    );
    assert!(told.ends_with(", after two choices 30\n"), "{told}");
}

#[test]
fn each_wrong_reading_of_the_turns_is_a_difference() {
    let wrong = [
        Reading { planner_first: true, ..RIGHT },
        Reading { descending: true, ..RIGHT },
        // The planner needs one of the buyer's choices alone, or both of his own.
        Reading { buyer: |out, fitted| out || fitted, ..RIGHT },
        Reading { planner: |out, fitted| out && fitted, ..RIGHT },
        // One side alone is looked at.
        Reading { buyer: |out, _| out, ..RIGHT },
        Reading { buyer: |_, fitted| fitted, ..RIGHT },
        Reading { planner: |out, _| out, ..RIGHT },
        Reading { planner: |_, fitted| fitted, ..RIGHT },
        // To fit is answered where both do, and something where there is no second free option.
        Reading { fitted_first: true, ..RIGHT },
        Reading { answers_from: 1, ..RIGHT },
        Reading { answers_from: 0, ..RIGHT },
        Reading { answers_from: 3, ..RIGHT },
    ];
    for (number, reading) in wrong.into_iter().enumerate() {
        let told = difference(reading);
        assert!(told.contains(": the answers differ: made's line 1 is "), "{number}: {told}");
        assert!(told.contains("\nturns\nbook "), "{number}: {told}");
    }
}

#[test]
fn each_wrong_reading_of_the_order_is_a_difference() {
    let wrong = [
        // A standard option is free, or is so where it is unwanted too.
        Reading { is_free: |order, option| (order.wanted | order.unwanted) & option == 0, ..RIGHT },
        Reading {
            is_free: |order, option| {
                (order.wanted | (order.standard ^ order.unwanted)) & option == 0
            },
            ..RIGHT
        },
        // A standard option is fitted though it is unwanted, or left out; a wanted one is left out.
        Reading { wanted: |order| order.wanted | order.standard, ..RIGHT },
        Reading { wanted: |order| order.wanted, ..RIGHT },
        Reading { wanted: |order| order.standard & !order.unwanted, ..RIGHT },
    ];
    for (number, reading) in wrong.into_iter().enumerate() {
        let told = difference(reading);
        let is_seen = told.contains("made's line 1 is ") || told.contains("made says ");
        assert!(is_seen, "{number}: {told}");
    }
}

#[test]
fn other_refusals_are_a_difference() {
    let told = |refused| difference(Reading { refused, ..RIGHT });
    // 12 free options are too many, or 13 are not.
    let twelve = told(|turns| match turns.port_settled() {
        Ok(_) if turns.free().len() == 12 => Some(16),
        settled => settled.err(),
    });
    assert!(twelve.contains("made's line 1 is `refused 16`, due is `"), "{twelve}");
    let thirteen = difference(Reading {
        refused: |turns| turns.port_settled().err().filter(|number| *number != 16),
        most: 13,
        ..RIGHT
    });
    assert!(thirteen.contains(", due is `refused 16`\nturns\n"), "{thirteen}");
    // 16 comes before 12, before 8, or before 7; and the order before the book.
    let early = [
        told(|turns| match turns.port_settled() {
            Err(12) if turns.free().len() > 12 => Some(16),
            settled => settled.err(),
        }),
        told(|turns| match turns.port_settled() {
            Err(8) if turns.free().len() > 12 => Some(16),
            settled => settled.err(),
        }),
        told(|turns| match turns.port_settled() {
            Err(7) if turns.free().len() > 12 => Some(16),
            settled => settled.err(),
        }),
        told(|turns| match turns.port_settled() {
            Err(1..=6) if turns.order.wanted & turns.order.unwanted != 0 => Some(8),
            settled => settled.err(),
        }),
    ];
    for (told, due) in early.iter().zip([12, 8, 7]) {
        assert!(
            told.contains(&format!("made's line 1 is `refused 16`, due is `refused {due}`")),
            "{told}"
        );
    }
    assert!(early[3].contains("made's line 1 is `refused 8`, due is `refused "), "{}", early[3]);
}

#[test]
fn a_check_that_does_not_go_with_the_answer_is_told() {
    let told = |check| {
        let turns = Box::new(|turns: &Turns| turns.port_settled());
        run(&mut Made { turns, check }, NO_SOLVER, 3, LEAST).unwrap_err()
    };
    let cannot = told(|check| Outcome { ending: port::CANNOT, ..check.port_outcome() });
    assert!(
        cannot.contains("it is forced, and made's check of the order is `cannot 0 "),
        "{cannot}"
    );
    let can = told(|check| Outcome { ending: port::CAN, ..check.port_outcome() });
    assert!(can.contains("it is open, and made's check of the order is `can 0 "), "{can}");
    let refused = told(|_| Outcome::refused(9));
    assert!(refused.contains("made's check of the order is `refused 9 0 0 0`"), "{refused}");
}

#[test]
fn turns_after_the_first_two_choices_that_do_not_bear_out_are_told() {
    let of = |forced| {
        let turns =
            Box::new(move |_: &Turns| Ok(port::Turns { forced, to_out: None, to_fitted: None }));
        let mut made = Made { turns, check: Check::port_outcome };
        let after =
            Turns { book: vec![2, 0, 0], order: Order { wanted: 1, unwanted: 2, standard: 0 } };
        [true, false].map(|due| bears_out(&mut made, &after, due))
    };
    let told = |says, due| {
        let after = "turns\nbook 020000\norder 1 2 0\nwhich are those of";
        Err(format!("made says `{says} none none`, due is `{due}`, after two choices, of\n{after}"))
    };
    assert_eq!(of(true), [Ok(()), told("forced", "open")]);
    assert_eq!(of(false), [told("open", "forced"), Ok(())]);
}

#[test]
fn an_outside_solver_that_disagrees_ends_the_run() {
    for said in [true, false] {
        let told = run(&mut Port, Ok(&move |_| Ok(said)), 3, LEAST).unwrap_err();
        let due = format!(": the outside solver does not say `{}`\nturns\n", forced_name(!said));
        assert!(told.contains(&due), "{told}");
    }
    let told = run(&mut Port, Ok(&|_| Err("no solver".to_string())), 3, LEAST).unwrap_err();
    assert!(told.contains(": no solver\nturns\n"), "{told}");
    // It agrees on the question, and not after the first two choices.
    let after = |text: &str| Ok(solver(text)? != text.starts_with("p cnf 2 2\n"));
    let turns = Turns { book: vec![2, 0, 0], order: Order::default() };
    let answer = turns.port_settled().unwrap();
    let mut tally = Tally::default();
    let confirmed = confirm(&after, &turns, answer.forced, &after_two(&turns, &answer), &mut tally);
    let due = "the outside solver does not say `forced`, after two choices, of\nturns\n\
               book 020000\norder 0 3 0\nwhich are those of";
    assert_eq!(confirmed, Err(due.to_string()));
}

#[test]
fn a_missing_solver_is_told_and_no_difference() {
    let missing = "no outside solver is installed (looked for: depqbf)".to_string();
    let tally = run(&mut Port, Err(missing.clone()), 3, LEAST).unwrap().unwrap();
    let due = format!("\nturns by the solver of quantified clauses too: none, {missing}\n");
    assert!(tally.told().ends_with(&due), "{}", tally.told());
}

#[test]
fn a_sort_that_was_not_seen_is_named() {
    let told = |tally: &Tally| tally.has_all().unwrap_err();
    assert_eq!(told(&Tally::default()), "no turns with `forced out out` were seen");
    let mut tally = run(&mut Port, Ok(&solver), 3, LEAST).unwrap().unwrap();
    tally.solved.remove(&false);
    assert_eq!(told(&tally), "no turns with `open by the solver` were seen");
    tally.checks.remove(&Built::CanButOpen);
    assert_eq!(told(&tally), "no turns with `can but open` were seen");
    tally.sorts.remove("option 64 free");
    assert_eq!(told(&tally), "no turns with `option 64 free` were seen");
    tally.numbers.remove("13 free");
    assert_eq!(told(&tally), "no turns with `13 free` were seen");
    tally.endings.remove("refused 12");
    assert_eq!(told(&tally), "no turns with `refused 12` were seen");
}

#[test]
fn a_program_is_asked_no_turns() {
    let mut program = Program { path: "./no-such-program".to_string(), page: None };
    assert!(run(&mut program, NO_SOLVER, 1, LEAST).unwrap().is_none());
}

#[test]
fn turns_go_with_the_books() {
    assert_eq!([beside(0), beside(800), beside(4000)], [400, 400, 2000]);
}
