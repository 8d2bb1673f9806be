//! Generated desks of any words, and a call, through the checker under test and through the port. State
//! number i of a seed is the same wherever it is made.

use super::made::beyond;
use crate::question::{first_difference, state_text, State};
use crate::random::Random;
use crate::under_test::UnderTest;
use optbook::{first, OPTIONS};
use port::{Call, DeskWords};
use std::collections::BTreeMap;

/// The state with this number, counted from 0.
pub fn state(seed: u64, number: usize) -> State {
    let mut random = Random::new(seed ^ (number as u64).wrapping_mul(0xa24b_aed4_963e_e407));
    let options = match random.below(6) {
        0 => OPTIONS as u32,
        1 => OPTIONS as u32 + random.between(1, 3) as u32,
        2 => (1 << random.between(7, 31)) + random.below(3) as u32,
        3 => u32::MAX - random.below(2) as u32,
        _ => random.below(OPTIONS) as u32,
    };
    let call = call(&mut random, options);
    let mut word = || word(&mut random, options);
    let (wanted, unwanted) = (word(), word());
    let drafts = [(); 16].map(|()| (word(), word()));
    let kept = match random.below(3) {
        0 => random.word(),
        1 => random.word() & 0xffff,
        _ => random.word() & random.word() & random.word(),
    };
    State { desk: DeskWords { options, wanted, unwanted, kept, drafts }, call }
}

/// A call, whose number is often at the edge of what is accepted.
fn call(random: &mut Random, options: u32) -> Call {
    let last = options.clamp(1, OPTIONS as u32);
    let some_option = random.between(1, last as usize) as u32;
    let option = match random.below(8) {
        0 => OPTIONS as u32,
        1 => OPTIONS as u32 + 1,
        2 => last,
        3 => options.saturating_add(1),
        4 => beyond(random, some_option),
        _ => some_option,
    };
    let some_draft = random.between(1, 16) as u32;
    let draft = match random.below(8) {
        0 => 0,
        1 => 17,
        2 => beyond(random, some_draft),
        _ => some_draft,
    };
    match random.below(4) {
        0 => Call::Set { option, fitted: random.chance(1, 2) },
        1 => Call::Clear { option },
        2 => Call::Keep { draft },
        _ => Call::Return { draft },
    }
}

/// A word: empty, full, some of so many options, or any.
fn word(random: &mut Random, options: u32) -> u64 {
    match random.below(6) {
        0 => 0,
        1 => u64::MAX,
        2 | 3 => random.word() & first(options as usize),
        _ => random.word(),
    }
}

/// Compares one state, and counts it.
pub fn compare(tested: &mut dyn UnderTest, state: &State, tally: &mut Tally) -> Result<(), String> {
    let after = state.port_after();
    let (due, printed) = (state_text(&after), tested.printed(&(*state).into())?);
    if printed != due {
        let line = first_difference(&printed, &due);
        return Err(format!("the answers differ: {}'s {line}", tested.name()));
    }
    tally.add(state, after.0);
    Ok(())
}

/// A sort of state, by name, and whether it is one with this number as its answer.
type Sort = (&'static str, fn(&State, u32) -> bool);

/// The sorts, in the order in which they are told. A state may be of several.
const SORTS: [Sort; 16] = [
    ("more than 64 options", |state, _| state.desk.options > 64),
    ("option 64 of more", |state, number| {
        state.desk.options > 64 && option(state) == Some(64) && number == 0
    }),
    ("option 65 of more", |state, number| {
        state.desk.options > 64 && option(state) == Some(65) && number == 7
    }),
    ("a wish for an option in both words", |state, number| {
        option(state).is_some_and(|option| both(state, option)) && number == 0
    }),
    ("a clear of an option in both words", |state, number| {
        matches!(state.call, Call::Clear { option } if both(state, option)) && number == 0
    }),
    ("a wish beside options above the last", |state, number| {
        option(state).is_some()
            && is_stray(state, (state.desk.wanted, state.desk.unwanted))
            && number == 0
    }),
    ("options above the last kept", |state, number| {
        let stray = is_stray(state, (state.desk.wanted, state.desk.unwanted));
        matches!(state.call, Call::Keep { .. }) && stray && number == 0
    }),
    ("options above the last returned to", |state, number| {
        matches!(state.call, Call::Return { .. })
            && number == 0
            && is_stray(state, draft_words(state))
    }),
    ("options in both words returned to", |state, number| {
        let (wanted, unwanted) = draft_words(state);
        matches!(state.call, Call::Return { .. }) && number == 0 && wanted & unwanted != 0
    }),
    ("words of a draft that is not kept", |state, number| {
        number == 15 && draft_words(state) != (0, 0)
    }),
    ("kept over words", |state, number| {
        let is_first = matches!(state.call, Call::Keep { draft: 1..=16 }) && !is_kept(state);
        is_first && number == 0 && draft_words(state) != (0, 0)
    }),
    ("a kept draft above 16", |state, number| number == 0 && state.desk.kept >> 16 != 0),
    ("draft 17 where its bit is set", |state, number| {
        draft(state) == Some(17) && state.desk.kept >> 16 & 1 == 1 && number == 14
    }),
    ("refused 7", |_, number| number == 7),
    ("refused 14", |_, number| number == 14),
    ("refused 15", |_, number| number == 15),
];

fn option(state: &State) -> Option<u32> {
    match state.call {
        Call::Set { option, .. } | Call::Clear { option } => Some(option),
        Call::Keep { .. } | Call::Return { .. } => None,
    }
}

fn draft(state: &State) -> Option<u32> {
    match state.call {
        Call::Keep { draft } | Call::Return { draft } => Some(draft),
        Call::Set { .. } | Call::Clear { .. } => None,
    }
}

/// The option is both wanted and unwanted.
fn both(state: &State, option: u32) -> bool {
    let both = state.desk.wanted & state.desk.unwanted;
    (1..=64).contains(&option) && both >> (option - 1) & 1 == 1
}

/// An order has an option above the last.
fn is_stray(state: &State, (wanted, unwanted): (u64, u64)) -> bool {
    (wanted | unwanted) & !first(state.desk.options as usize) != 0
}

/// The words of the call's draft; none where it has no draft.
fn draft_words(state: &State) -> (u64, u64) {
    match draft(state) {
        Some(draft @ 1..=16) => state.desk.drafts[draft as usize - 1],
        _ => (0, 0),
    }
}

/// The call's draft is kept.
fn is_kept(state: &State) -> bool {
    matches!(draft(state), Some(draft @ 1..=16) if state.desk.kept >> (draft - 1) & 1 == 1)
}

/// What was compared: the states, by their sorts.
#[derive(Debug, Default)]
pub struct Tally {
    states: usize,
    sorts: BTreeMap<&'static str, usize>,
}

impl Tally {
    fn add(&mut self, state: &State, number: u32) {
        self.states += 1;
        for (name, _) in SORTS.iter().filter(|(_, is_such)| is_such(state, number)) {
            *self.sorts.entry(name).or_default() += 1;
        }
    }

    /// Every sort was seen.
    pub fn has_all(&self) -> Result<(), String> {
        match SORTS.iter().find(|(name, _)| !self.sorts.contains_key(name)) {
            Some((name, _)) => Err(format!("no desk at will of the sort `{name}` was seen")),
            None => Ok(()),
        }
    }

    /// So many states, of which sorts.
    pub fn told(&self) -> String {
        let count = |name: &str| self.sorts.get(name).copied().unwrap_or(0);
        let sorts: Vec<String> =
            SORTS.iter().map(|(name, _)| format!("{name} {}", count(name))).collect();
        format!("{:<20} {:>6}   {}\n", "desks at will", self.states, sorts.join(", "))
    }
}

#[cfg(test)]
mod tests {
    use super::*;
    use crate::question::Question;
    use crate::under_test::Port;

    /// A checker made of a function for a state.
    struct Made(fn(&State) -> (u32, DeskWords));

    impl UnderTest for Made {
        fn name(&self) -> String {
            "made".to_string()
        }

        fn takes(&self, question: &Question) -> bool {
            matches!(question, Question::State(_))
        }

        fn printed(&mut self, question: &Question) -> Result<String, String> {
            match question {
                Question::State(state) => Ok(state_text(&(self.0)(state))),
                _ => Err("no state".to_string()),
            }
        }
    }

    /// What is told of a checker that answers in this way.
    fn difference(after: fn(&State) -> (u32, DeskWords)) -> String {
        let (mut made, mut tally) = (Made(after), Tally::default());
        (0..1600).try_for_each(|i| compare(&mut made, &state(3, i), &mut tally)).unwrap_err()
    }

    /// The port's answer to the state with other words.
    fn with(state: &State, change: impl Fn(&mut DeskWords)) -> (u32, DeskWords) {
        let mut state = *state;
        change(&mut state.desk);
        state.port_after()
    }

    #[test]
    fn every_sort_comes_whatever_the_seed_is() {
        for seed in 1..9 {
            let mut tally = Tally::default();
            for number in 0..1600 {
                compare(&mut Port, &state(seed, number), &mut tally).unwrap();
            }
            assert_eq!(tally.has_all(), Ok(()));
            let told = tally.told();
            assert!(told.starts_with("desks at will          1600   more than 64 "), "{told}");
        }
    }

    #[test]
    fn stray_words_that_do_not_stay_are_a_difference() {
        let told = [
            // Options above the last, drafts above 16, and words of drafts that are not kept.
            difference(|state| {
                with(state, |desk| {
                    let known = first(desk.options as usize);
                    (desk.wanted, desk.unwanted) = (desk.wanted & known, desk.unwanted & known);
                })
            }),
            difference(|state| with(state, |desk| desk.kept &= 0xffff)),
            difference(|state| {
                with(state, |desk| {
                    for (place, words) in desk.drafts.iter_mut().enumerate() {
                        *words = if desk.kept >> place & 1 == 1 { *words } else { (0, 0) };
                    }
                })
            }),
            difference(|state| with(state, |desk| desk.options = desk.options.min(64))),
        ];
        for told in told {
            assert!(told.starts_with("the answers differ: made's line "), "{told}");
        }
    }

    #[test]
    fn a_wish_that_leaves_the_other_is_a_difference() {
        let told = difference(|state| {
            let (number, desk) = state.port_after();
            let unwanted = desk.unwanted | (state.desk.wanted & state.desk.unwanted);
            (number, DeskWords { unwanted, ..desk })
        });
        assert!(told.contains(" is `order "), "{told}");
    }

    #[test]
    fn other_limits_are_a_difference() {
        // 65 options of a desk that has more, none of them, and 17 drafts.
        let told = difference(|state| match state.call {
            Call::Set { option: 65, .. } if state.desk.options > 64 => (0, state.desk),
            _ => state.port_after(),
        });
        assert!(told.contains("line 1 is `0`, due is `7`"), "{told}");
        let told = difference(|state| match state.desk.options {
            0..=64 => state.port_after(),
            options => {
                let (number, desk) = with(state, |desk| desk.options = 0);
                (number, DeskWords { options, ..desk })
            }
        });
        assert!(told.contains("line 1 is `7`, due is `0`"), "{told}");
        let told = difference(|state| match state.call {
            Call::Return { draft: 17 } if state.desk.kept >> 16 & 1 == 0 => (15, state.desk),
            _ => state.port_after(),
        });
        assert!(told.contains("line 1 is `15`, due is `14`"), "{told}");
    }

    #[test]
    fn a_return_to_what_is_not_kept_is_a_difference() {
        let told = difference(|state| match state.port_after() {
            (15, desk) => {
                let (wanted, unwanted) = draft_words(state);
                (0, DeskWords { wanted, unwanted, ..desk })
            }
            after => after,
        });
        assert!(told.contains("line 1 is `0`, due is `15`"), "{told}");
    }

    #[test]
    fn a_refused_call_that_changes_a_word_is_a_difference() {
        let told = difference(|state| match state.port_after() {
            (0, desk) => (0, desk),
            (number, desk) => (number, DeskWords { kept: desk.kept ^ 1, ..desk }),
        });
        assert!(told.contains("line 2 is `numbers "), "{told}");
    }

    #[test]
    fn a_sort_that_was_not_seen_is_named() {
        let told = Tally::default().has_all().unwrap_err();
        assert_eq!(told, "no desk at will of the sort `more than 64 options` was seen");
        let sorts = SORTS.iter().map(|(name, _)| (*name, 1)).collect();
        let mut tally = Tally { states: 1, sorts };
        assert_eq!(tally.has_all(), Ok(()));
        tally.sorts.remove("refused 15");
        let told = tally.has_all().unwrap_err();
        assert_eq!(told, "no desk at will of the sort `refused 15` was seen");
    }
}
