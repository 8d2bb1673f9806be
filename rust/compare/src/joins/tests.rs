//! The comparison of joins sees each wrong reading of them.

use super::*;
use crate::question::Question;
use crate::under_test::{Port, Program};
use optbook::bytes::{book_bytes, read_input};
use port::Outcome;

/// A checker made of a function for a join and one for a check.
struct Made {
    join: fn(&Join) -> Joined,
    check: fn(&Check) -> Outcome,
}

impl UnderTest for Made {
    fn name(&self) -> String {
        "made".to_string()
    }

    fn takes(&self, question: &Question) -> bool {
        matches!(question, Question::Check(_) | Question::Join(_))
    }

    fn printed(&mut self, question: &Question) -> Result<String, String> {
        match question {
            Question::Check(check) => Ok((self.check)(check).to_string()),
            Question::Join(join) => Ok(joined_text(&(self.join)(join))),
            _ => Err("neither a check nor a join".to_string()),
        }
    }
}

/// A solver for the tests, which goes by the shortest clause that is not kept.
fn solver(clauses: &str) -> Result<bool, String> {
    let clause = |line: &str| {
        let mut words = (0u128, 0u128);
        for literal in line.split(' ').map(|word| word.parse::<i32>().unwrap()) {
            match literal {
                1.. => words.0 |= 1 << (literal - 1),
                0 => (),
                _ => words.1 |= 1 << (-literal - 1),
            }
        }
        words
    };
    let clauses: Vec<(u128, u128)> = clauses.lines().skip(1).map(clause).collect();
    Ok(can_be_kept(&clauses, 0, 0))
}

/// The clauses can all be kept with these variables true and these false.
fn can_be_kept(clauses: &[(u128, u128)], mut trues: u128, mut falses: u128) -> bool {
    loop {
        let before = (trues, falses);
        let mut shortest = 0u128;
        for &(of_true, of_false) in clauses {
            if of_true & trues != 0 || of_false & falses != 0 {
                continue;
            }
            let (of_true, of_false) = (of_true & !falses, of_false & !trues);
            let open = of_true | of_false;
            match open.count_ones() {
                0 => return false,
                1 => (trues, falses) = (trues | of_true, falses | of_false),
                length if shortest == 0 || length < shortest.count_ones() => shortest = open,
                _ => (),
            }
        }
        if (trues, falses) != before {
            continue;
        }
        let variable = shortest & shortest.wrapping_neg();
        return variable == 0
            || can_be_kept(clauses, trues | variable, falses)
            || can_be_kept(clauses, trues, falses | variable);
    }
}

/// What is told of a checker that joins in this way.
fn difference(join: fn(&Join) -> Joined) -> String {
    let mut made = Made { join, check: Check::port_outcome };
    run(&mut made, &solver, 3, LEAST).unwrap_err()
}

/// The port's answer to the question with another part.
fn with(join: &Join, change: impl FnOnce(&mut Join)) -> Joined {
    let mut join = join.clone();
    change(&mut join);
    join.port_joined()
}

/// The pairs that are whole.
fn pairs(join: &Join) -> Vec<[u8; 2]> {
    join.pairs.chunks_exact(2).map(|pair| [pair[0], pair[1]]).collect()
}

/// The pairs that such a one does not come after.
fn without_later(join: &Join, is_such: fn(&[u8; 2], &[u8; 2]) -> bool) -> Vec<u8> {
    let mut kept: Vec<[u8; 2]> = Vec::new();
    for pair in pairs(join) {
        if !kept.iter().any(|earlier| is_such(earlier, &pair)) {
            kept.push(pair);
        }
    }
    kept.concat()
}

#[test]
fn every_sort_comes_whatever_the_seed_is() {
    for seed in 1..4 {
        let tally = run(&mut Port, &solver, seed, LEAST).unwrap().unwrap();
        let told = tally.told();
        assert!(tally.solved > 100 && tally.tried_all_choices > 50, "{told}");
        assert!(tally.stopped < 20, "{told}");
        assert!(told.starts_with("joins                   400   first refused 1 "), "{told}");
    }
}

#[test]
fn other_refusals_of_pairs_are_a_difference() {
    let told = [
        // A byte that is left over, a pair that comes twice, and options that are paired again are passed over.
        difference(|join| with(join, |join| join.pairs.truncate(join.pairs.len() / 2 * 2))),
        difference(|join| {
            with(join, |join| join.pairs = without_later(join, |one, other| one == other))
        }),
        difference(|join| {
            with(join, |join| join.pairs = without_later(join, |one, other| one[0] == other[0]))
        }),
        difference(|join| {
            with(join, |join| join.pairs = without_later(join, |one, other| one[1] == other[1]))
        }),
        // A pair of option 0 is passed over, and the seventh bit and the next are not looked at.
        difference(|join| {
            with(join, |join| {
                let good = pairs(join).into_iter().filter(|pair| !pair.contains(&0));
                join.pairs = good.flatten().collect();
            })
        }),
        difference(|join| {
            with(join, |join| {
                let low = |option: &u8| if *option > 64 { option % 64 } else { *option };
                join.pairs = join.pairs.iter().map(low).collect();
            })
        }),
    ];
    for told in told {
        assert!(told.contains("the joint books differ: made's line 1 is "), "{told}");
        assert!(told.contains(", due is `refused 22`\njoin\nfirst "), "{told}");
    }
}

#[test]
fn another_order_of_refusals_is_a_difference() {
    let told = [
        // The second book first, 22 before the second book, and 23 before 22.
        difference(|join| match port::join(&join.second, &[0, 0, 0], &[], 1 << 20) {
            Err(number) => Err(number),
            Ok(_) => join.port_joined(),
        }),
        difference(|join| match join.port_joined() {
            Err(1..=6) if !join.pairs.len().is_multiple_of(2) => Err(22),
            joined => joined,
        }),
        difference(|join| match with(join, |join| join.pairs.clear()) {
            Err(23) => Err(23),
            _ => join.port_joined(),
        }),
    ];
    for told in told {
        assert!(told.contains("made's line 1 is `refused "), "{told}");
    }
}

#[test]
fn other_limits_are_a_difference() {
    let refused = [
        // 64 options, 1,024 rules, and just enough room are too much.
        difference(|join| match join.port_joined() {
            Ok(book) if book[0] == 64 => Err(23),
            joined => joined,
        }),
        difference(|join| match join.port_joined() {
            Ok(book) if book[1..3] == [0, 4] => Err(23),
            joined => joined,
        }),
        difference(|join| with(join, |join| join.room = join.room.saturating_sub(1))),
    ];
    for told in refused {
        assert!(told.contains("made's line 1 is `refused 23`, due is `book "), "{told}");
    }
    let told = difference(|join| with(join, |join| join.room += 1));
    assert!(told.contains(", due is `refused 23`"), "{told}");
}

#[test]
fn another_joint_book_is_a_difference() {
    let told = [
        // The second's rules first, pairs the wrong way round, and pairs that are not taken as such.
        difference(|join| {
            let joint = join.port_joined()?;
            let (_, mut book) = read_input(&input_bytes(Order::default(), &joint)).unwrap();
            book.rules.rotate_left(join.first.len() / 16);
            Ok(book_bytes(&book))
        }),
        difference(|join| {
            let turned = with(join, |join| {
                join.pairs.chunks_exact_mut(2).for_each(|pair| pair.reverse());
            });
            join.port_joined().and(turned)
        }),
        difference(|join| {
            let apart = with(join, |join| join.pairs.clear());
            join.port_joined().and(apart)
        }),
    ];
    for told in told {
        assert!(told.contains("the joint books differ: made's line 1 is "), "{told}");
    }
}

#[test]
fn a_check_of_the_joint_book_that_is_wrong_is_told() {
    let told = |check: fn(&Check) -> Outcome| {
        let mut made = Made { join: Join::port_joined, check };
        run(&mut made, &solver, 3, LEAST).unwrap_err()
    };
    let refused = told(|_| Outcome::refused(5));
    assert!(refused.contains("made's check of the joint book is `refused 5 0 0 0`\n"), "{refused}");
    let can = told(|check| Outcome { ending: port::CAN, ..check.port_outcome() });
    assert!(can.contains("made's verdict on the joint book, true, is not others'\n"), "{can}");
}

#[test]
fn an_outside_solver_that_disagrees_ends_the_run() {
    let told = run(&mut Port, &|_| Ok(true), 3, LEAST).unwrap_err();
    assert!(told.contains("port's verdict on the joint book, false, is not others'\n"), "{told}");
    let told = run(&mut Port, &|_| Err("no solver".to_string()), 3, LEAST).unwrap_err();
    assert!(told.contains(": no solver\njoin\n"), "{told}");
}

#[test]
fn a_sort_that_was_not_seen_is_named() {
    let told = |tally: &Tally| tally.has_all().unwrap_err();
    assert_eq!(told(&Tally::default()), "no join with `first refused 1` was seen");
    let mut tally = run(&mut Port, &solver, 3, LEAST).unwrap().unwrap();
    tally.verdicts.remove(&built(false, false, false));
    assert_eq!(told(&tally), "no join with `both cannot` was seen");
    tally.sorts.remove("one byte short");
    assert_eq!(told(&tally), "no join with `one byte short` was seen");
    tally.endings.remove("second refused 6");
    assert_eq!(told(&tally), "no join with `second refused 6` was seen");
}

#[test]
fn a_program_is_asked_no_join() {
    let mut program = Program { path: "./no-such-program".to_string(), page: None };
    assert!(run(&mut program, &solver, 1, LEAST).unwrap().is_none());
}

#[test]
fn joins_go_with_the_books() {
    assert_eq!([beside(0), beside(800), beside(4000)], [400, 400, 2000]);
}
