//! The comparison of desks sees each wrong reading of them.

use super::*;
use crate::question::state_text;
use crate::under_test::{Port, Program};
use port::{Call, DeskWords, Outcome};

/// A checker made of a function for a desk and one for a check. Desks of any words are the port's.
struct Made {
    desk: fn(&Desk) -> Answers,
    check: fn(&Check) -> Outcome,
}

impl UnderTest for Made {
    fn name(&self) -> String {
        "made".to_string()
    }

    fn takes(&self, question: &Question) -> bool {
        matches!(question, Question::Check(_) | Question::Desk(_) | Question::State(_))
    }

    fn printed(&mut self, question: &Question) -> Result<String, String> {
        match question {
            Question::Check(check) => Ok((self.check)(check).to_string()),
            Question::Desk(desk) => Ok(answers_text(&(self.desk)(desk))),
            Question::State(state) => Ok(state_text(&state.port_after())),
            _ => Err("neither a check nor a desk".to_string()),
        }
    }
}

fn made(desk: fn(&Desk) -> Answers) -> [Box<dyn UnderTest>; 1] {
    [Box::new(Made { desk, check: Check::port_outcome })]
}

/// What is told of a checker whose desks answer in this way.
fn difference(desk: fn(&Desk) -> Answers) -> String {
    run(&mut made(desk), 3, LEAST).unwrap_err()
}

/// What comes of a desk in words whose calls a function takes. A fresh one for more than 64 options is that
/// for none.
fn by(asked: &Desk, mut call: impl FnMut(&mut DeskWords, Call) -> u32) -> Answers {
    let (fresh, options) = match asked.options {
        0..=64 => (0, asked.options),
        _ => (2, 0),
    };
    let mut desk = DeskWords { options, ..DeskWords::default() };
    let mut numbers = vec![fresh];
    numbers.extend(asked.calls.iter().map(|&asked| call(&mut desk, asked)));
    let kept = (1..=16).filter(|draft| desk.kept >> (draft - 1) & 1 == 1);
    let drafts = kept.map(|draft| (draft, desk.drafts[draft as usize - 1])).collect();
    Answers { numbers, order: (desk.wanted, desk.unwanted), drafts }
}

/// The same, where a change is made after each call: to the desk, which was so before the call, by the call and
/// its number.
fn changed(asked: &Desk, mut change: impl FnMut(&mut DeskWords, &DeskWords, Call, u32)) -> Answers {
    by(asked, |desk, call| {
        let before = *desk;
        let number = desk.call(call);
        change(desk, &before, call, number);
        number
    })
}

#[test]
fn every_sort_is_seen_and_counted_whatever_the_seed_is() {
    for seed in 1..9 {
        let tally = run(&mut [Box::new(Port)], seed, beside(0)).unwrap().unwrap();
        assert_eq!(tally.desks, 400);
        assert!(tally.orders > 1000, "{}", tally.orders);
        let told = tally.told();
        assert!(told.starts_with("desks                   400   accepted "), "{told}");
        let orders = format!("that a check does not refuse: {}\ndesks at will ", tally.orders);
        assert!(told.contains(&orders), "{told}");
    }
}

/// The words as they should be give no difference, so that those below come from what is changed.
#[test]
fn the_calls_on_words_differ_nowhere() {
    assert!(run(&mut made(|asked| by(asked, DeskWords::call)), 3, LEAST).unwrap().is_some());
}

#[test]
fn the_first_difference_is_told_with_the_calls() {
    let told = difference(|asked| {
        by(asked, |desk, call| match call {
            Call::Clear { .. } => desk.call(call).min(1),
            _ => desk.call(call),
        })
    });
    assert!(told.starts_with("desk "), "{told}");
    assert!(told.contains(" of seed 3: after ") && told.contains(" calls the answers differ: "));
    assert!(told.contains("\ndesk ") && told.contains("\nclear "), "{told}");
}

#[test]
fn wrong_desks_come_to_each_checker() {
    let wrong: fn(&Desk) -> Answers = |asked| {
        let mut answers = asked.port_answers();
        answers.drafts.pop();
        answers
    };
    for position in 0..2 {
        let mut tested: [Box<dyn UnderTest>; 2] = [Box::new(Port), Box::new(Port)];
        tested[position] = Box::new(Made { desk: wrong, check: Check::port_outcome });
        let told = run(&mut tested, 3, LEAST).unwrap_err();
        assert!(told.contains(" is nothing, due is `draft "), "{told}");
    }
}

#[test]
fn a_wish_that_does_not_replace_the_other_is_a_difference() {
    let told = difference(|asked| {
        changed(asked, |desk, before, call, _| {
            if let Call::Set { .. } = call {
                (desk.wanted, desk.unwanted) =
                    (desk.wanted | before.wanted, desk.unwanted | before.unwanted);
            }
        })
    });
    assert!(told.contains(" is `order "), "{told}");
}

#[test]
fn a_clear_that_leaves_something_or_takes_more_is_a_difference() {
    let told = [
        // Only what is wanted, only what is unwanted, and all wishes.
        difference(|asked| {
            changed(asked, |desk, before, call, _| {
                if let Call::Clear { .. } = call {
                    desk.unwanted = before.unwanted;
                }
            })
        }),
        difference(|asked| {
            changed(asked, |desk, before, call, _| {
                if let Call::Clear { .. } = call {
                    desk.wanted = before.wanted;
                }
            })
        }),
        difference(|asked| {
            changed(asked, |desk, _, call, number| {
                if let (Call::Clear { .. }, 0) = (call, number) {
                    (desk.wanted, desk.unwanted) = (0, 0);
                }
            })
        }),
    ];
    for told in told {
        assert!(told.contains(" is `order "), "{told}");
    }
}

#[test]
fn a_return_that_does_not_give_the_order_as_it_was_kept_is_a_difference() {
    let told = [
        // Later wishes stay, later left-out options stay, and a return to the last draft that was kept.
        difference(|asked| {
            changed(asked, |desk, before, call, number| {
                if let (Call::Return { .. }, 0) = (call, number) {
                    (desk.wanted, desk.unwanted) =
                        (desk.wanted | before.wanted, desk.unwanted | before.unwanted);
                }
            })
        }),
        difference(|asked| {
            changed(asked, |desk, before, call, number| {
                if let (Call::Return { .. }, 0) = (call, number) {
                    desk.unwanted = before.unwanted;
                }
            })
        }),
        difference(|asked| {
            let mut last = 0;
            changed(asked, |desk, _, call, number| match (call, number) {
                (Call::Keep { draft }, 0) => last = draft,
                (Call::Return { .. }, 0) => {
                    desk.call(Call::Return { draft: last });
                }
                _ => (),
            })
        }),
    ];
    for told in told {
        assert!(told.contains(" is `order "), "{told}");
    }
}

#[test]
fn a_draft_that_does_not_stay_as_it_was_kept_is_a_difference() {
    let told = [
        // The first one stays though it is kept again; a return takes it away; it follows the order; a draft
        // that is kept drops the others.
        difference(|asked| {
            by(asked, |desk, call| match call {
                Call::Keep { draft: draft @ 1..=16 } if desk.kept >> (draft - 1) & 1 == 1 => 0,
                _ => desk.call(call),
            })
        }),
        difference(|asked| {
            changed(asked, |desk, _, call, number| {
                if let (Call::Return { draft }, 0) = (call, number) {
                    desk.kept &= !(1 << (draft - 1));
                }
            })
        }),
        difference(|asked| {
            let mut last = None;
            changed(asked, |desk, _, call, number| {
                if let (Call::Keep { draft } | Call::Return { draft }, 0) = (call, number) {
                    last = Some(draft);
                }
                if let Some(draft) = last {
                    desk.call(Call::Keep { draft });
                }
            })
        }),
        difference(|asked| {
            changed(asked, |desk, _, call, number| {
                if let (Call::Keep { draft }, 0) = (call, number) {
                    desk.kept = 1 << (draft - 1);
                }
            })
        }),
    ];
    for told in told {
        assert!(told.contains("the answers differ: made's line "), "{told}");
    }
}

/// The call with another number where it has such a draft.
fn with_draft(call: Call, change: impl Fn(u32) -> u32) -> Call {
    match call {
        Call::Keep { draft } => Call::Keep { draft: change(draft) },
        Call::Return { draft } => Call::Return { draft: change(draft) },
        wish => wish,
    }
}

/// The call with another option where it is a wish.
fn with_option(call: Call, change: impl Fn(u32) -> u32) -> Call {
    match call {
        Call::Set { option, fitted } => Call::Set { option: change(option), fitted },
        Call::Clear { option } => Call::Clear { option: change(option) },
        of_draft => of_draft,
    }
}

#[test]
fn other_limits_are_a_difference() {
    let fourteen = [
        // Drafts from 0 on, numbers of which only some bits are looked at, and the highest taken as 16.
        difference(|asked| {
            by(asked, |desk, call| desk.call(with_draft(call, |draft| draft.max(1))))
        }),
        difference(|asked| {
            let low = |draft: u32| if draft > 17 { draft % 32 } else { draft };
            by(asked, |desk, call| desk.call(with_draft(call, low)))
        }),
        difference(|asked| {
            by(asked, |desk, call| desk.call(with_draft(call, |draft| draft.min(16))))
        }),
    ];
    for told in fourteen {
        assert!(told.contains("due is `14`"), "{told}");
    }
    let seven = [
        difference(|asked| {
            by(asked, |desk, call| desk.call(with_option(call, |option| option.max(1))))
        }),
        difference(|asked| {
            let low = |option: u32| if option > 128 { option % 128 } else { option };
            by(asked, |desk, call| desk.call(with_option(call, low)))
        }),
        difference(|asked| {
            by(asked, |desk, call| {
                let last = desk.options;
                desk.call(with_option(call, |option| option.min(last)))
            })
        }),
    ];
    for told in seven {
        assert!(told.contains("due is `7`"), "{told}");
    }
    let told = [
        difference(|asked| {
            by(asked, |desk, call| desk.call(with_draft(call, |d| if d == 16 { 17 } else { d })))
        }),
        difference(|asked| {
            by(asked, |desk, call| {
                let last = desk.options;
                desk.call(with_option(call, |option| if option == last { 0 } else { option }))
            })
        }),
    ];
    assert!(told[0].contains("is `14`, due is `0`"), "{}", told[0]);
    assert!(told[1].contains("is `7`, due is `0`"), "{}", told[1]);
}

#[test]
fn a_draft_looked_for_before_its_number_is_judged_is_a_difference() {
    let told = difference(|asked| {
        by(asked, |desk, call| match (call, desk.call(call)) {
            (Call::Return { .. }, 14) => 15,
            (_, number) => number,
        })
    });
    assert!(told.contains("is `15`, due is `14`"), "{told}");
}

#[test]
fn a_refused_call_that_changes_something_is_a_difference() {
    let told = [
        // A return empties the order, and a wish beyond the last clears the last.
        difference(|asked| {
            changed(asked, |desk, _, _, number| {
                if number == 15 {
                    (desk.wanted, desk.unwanted) = (0, 0);
                }
            })
        }),
        difference(|asked| {
            changed(asked, |desk, _, _, number| {
                if number == 7 {
                    desk.call(Call::Clear { option: desk.options });
                }
            })
        }),
    ];
    for told in told {
        assert!(told.contains(" is `order "), "{told}");
    }
}

#[test]
fn a_desk_for_too_many_options_that_has_some_is_a_difference() {
    let told = difference(|asked| {
        let options = asked.options.min(64);
        let mut answers = by(&Desk { options, ..asked.clone() }, DeskWords::call);
        if asked.options > 64 {
            answers.numbers[0] = 2;
        }
        answers
    });
    assert!(told.contains("is `0`, due is `7`"), "{told}");
    let told = difference(|asked| {
        let mut answers = asked.port_answers();
        answers.numbers[0] = 0;
        answers
    });
    assert!(told.contains("line 1 is `0`, due is `2`"), "{told}");
}

#[test]
fn an_order_that_is_refused_is_told() {
    let check = |check: &Check| match check.parts() {
        Some((order, _)) if order.unwanted != 0 => Outcome::refused(8),
        _ => check.port_outcome(),
    };
    let mut made: [Box<dyn UnderTest>; 1] = [Box::new(Made { desk: Desk::port_answers, check })];
    let told = run(&mut made, 3, LEAST).unwrap_err();
    assert!(told.contains(": made's check of the order "), "{told}");
    assert!(told.contains(" is `refused 8 0 0 0`\n"), "{told}");
}

#[test]
fn a_sort_that_was_not_seen_is_named() {
    let told = |tally: &Tally| tally.has_all().unwrap_err();
    assert_eq!(told(&Tally::default()), "no desk with `accepted` was seen");
    let mut tally = run(&mut [Box::new(Port)], 3, LEAST).unwrap().unwrap();
    tally.sorts.remove("kept again");
    assert_eq!(told(&tally), "no desk with `kept again` was seen");
    tally.numbers.remove(&15);
    assert_eq!(told(&tally), "no desk with `refused 15` was seen");
}

#[test]
fn a_program_is_asked_no_desk() {
    let program = Program { path: "./no-such-program".to_string(), page: None };
    assert!(run(&mut [Box::new(program)], 1, LEAST).unwrap().is_none());
}

#[test]
fn desks_go_with_the_books() {
    assert_eq!([beside(0), beside(800), beside(4000)], [400, 400, 2000]);
}
