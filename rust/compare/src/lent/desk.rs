//! A desk that is lent to the library, with words before it and after it that are not. A fresh desk is
//! written over rubbish.

use crate::question::{Answers, Desk, State};
use optcheck::{DeskWords, DRAFTS};
use port::Call;

/// Words before the desk, and words after it.
const BESIDE: usize = 8;

/// A desk between words that are not lent.
#[repr(C)]
struct Lent {
    before: [u64; BESIDE],
    desk: DeskWords,
    after: [u64; BESIDE],
    rubbish: u64,
}

impl Lent {
    fn new(desk: DeskWords, rubbish: u64) -> Lent {
        let beside = [rubbish; BESIDE];
        Lent { before: beside, desk, after: beside, rubbish }
    }

    /// Lends the desk to a call. It is an error if a word beside it was written, or if a refused call
    /// changed it.
    fn lend(&mut self, call: impl FnOnce(&mut DeskWords) -> u32) -> Result<u32, String> {
        let before = self.desk;
        let number = self.lend_to_change(call)?;
        match number == 0 || self.desk == before {
            true => Ok(number),
            false => Err(format!("a call that was refused, number {number}, changed the desk")),
        }
    }

    /// The same, where even a refusal writes the desk.
    fn lend_to_change(&mut self, call: impl FnOnce(&mut DeskWords) -> u32) -> Result<u32, String> {
        let number = call(&mut self.desk);
        match self.before.iter().chain(&self.after).all(|word| *word == self.rubbish) {
            true => Ok(number),
            false => Err("a word beside the desk was written".to_string()),
        }
    }
}

/// Lends a desk full of rubbish to a function that makes it fresh, and then to one that takes the calls,
/// and gives what comes of them. It is an error if more of the desk changes than may.
pub fn lend(
    asked: &Desk,
    rubbish: u64,
    fresh: impl FnOnce(u32, &mut DeskWords) -> u32,
    mut call: impl FnMut(&mut DeskWords, Call) -> u32,
) -> Result<Answers, String> {
    let mut lent = Lent::new(full_of(rubbish), rubbish);
    let mut numbers = vec![lent.lend_to_change(|desk| fresh(asked.options, desk))?];
    let options = lent.desk.options;
    if lent.desk != (DeskWords { options, ..DeskWords::default() }) {
        return Err("a fresh desk has a word that is not 0".to_string());
    }
    for &asked in &asked.calls {
        numbers.push(lent.lend(|desk| call(desk, asked))?);
        is_of_calls(&lent.desk, options)?;
    }
    let DeskWords { wanted, unwanted, .. } = lent.desk;
    let drafts = (0..DRAFTS).filter(|&place| is_kept(&lent.desk, place));
    let draft = |place| (place as u32 + 1, draft(&lent.desk, place));
    Ok(Answers { numbers, order: (wanted, unwanted), drafts: drafts.map(draft).collect() })
}

/// Lends a desk of any words to one call, and gives its number and the desk after it, with the same errors.
pub fn lend_once(
    asked: &State,
    rubbish: u64,
    call: impl FnOnce(&mut DeskWords, Call) -> u32,
) -> Result<(u32, port::DeskWords), String> {
    let mut lent = Lent::new(of_port(&asked.desk), rubbish);
    let number = lent.lend(|desk| call(desk, asked.call))?;
    Ok((number, to_port(&lent.desk)))
}

/// The desk is one that a run of calls from a fresh desk may lead to, in what no answer tells: its number
/// of options is what it was, no draft is kept but 1 to 16, and those that are not kept have no words.
fn is_of_calls(desk: &DeskWords, options: u32) -> Result<(), String> {
    if desk.options != options {
        return Err(format!("a desk for {options} options is one for {}", desk.options));
    }
    if desk.kept >> DRAFTS != 0 {
        return Err(format!("the word {:#x} of kept drafts has another than 1 to 16", desk.kept));
    }
    let written = |&place: &usize| !is_kept(desk, place) && draft(desk, place) != (0, 0);
    match (0..DRAFTS).find(written) {
        Some(place) => Err(format!("draft {} has words, and it is not kept", place + 1)),
        None => Ok(()),
    }
}

fn is_kept(desk: &DeskWords, place: usize) -> bool {
    desk.kept >> place & 1 == 1
}

fn draft(desk: &DeskWords, place: usize) -> (u64, u64) {
    (desk.draft_wanted[place], desk.draft_unwanted[place])
}

/// A desk with rubbish in every word.
fn full_of(rubbish: u64) -> DeskWords {
    DeskWords {
        options: rubbish as u32,
        wanted: rubbish,
        unwanted: rubbish,
        kept: rubbish,
        draft_wanted: [rubbish; DRAFTS],
        draft_unwanted: [rubbish; DRAFTS],
    }
}

/// The port's words as the library takes them.
fn of_port(desk: &port::DeskWords) -> DeskWords {
    let port::DeskWords { options, wanted, unwanted, kept, drafts } = *desk;
    let draft_wanted = drafts.map(|(wanted, _)| wanted);
    let draft_unwanted = drafts.map(|(_, unwanted)| unwanted);
    DeskWords { options, wanted, unwanted, kept, draft_wanted, draft_unwanted }
}

/// The library's words as the port has them.
fn to_port(desk: &DeskWords) -> port::DeskWords {
    let DeskWords { options, wanted, unwanted, kept, .. } = *desk;
    let mut drafts = [(0, 0); DRAFTS];
    drafts.iter_mut().enumerate().for_each(|(place, words)| *words = draft(desk, place));
    port::DeskWords { options, wanted, unwanted, kept, drafts }
}

#[cfg(test)]
mod tests {
    use super::super::tests::RUBBISH;
    use super::*;
    use crate::question::{answers_text, state_text, Question};

    fn desk(lines: &[&str]) -> Desk {
        match Question::read(lines).unwrap() {
            Question::Desk(desk) => desk,
            question => panic!("{question:?} is no desk"),
        }
    }

    fn fresh(options: u32, desk: &mut DeskWords) -> u32 {
        *desk = DeskWords { options, ..DeskWords::default() };
        0
    }

    /// What the port does, as a call of the library.
    fn call(desk: &mut DeskWords, call: Call) -> u32 {
        let mut words = to_port(desk);
        let number = words.call(call);
        *desk = of_port(&words);
        number
    }

    /// What is told of calls after each of which a change is made.
    fn changed(lines: &[&str], change: impl Fn(&mut DeskWords)) -> String {
        let asked = desk(&[&["desk 3"], lines].concat());
        let changed = |desk: &mut DeskWords, asked| {
            let number = call(desk, asked);
            change(desk);
            number
        };
        lend(&asked, RUBBISH, fresh, changed).unwrap_err()
    }

    #[test]
    fn numbers_order_and_drafts_come_back() {
        let asked =
            desk(&["desk 3", "set 3 fitted", "keep 16", "set 4 out", "set 1 out", "keep 2"]);
        let answers = lend(&asked, RUBBISH, fresh, call).unwrap();
        assert_eq!(answers, asked.port_answers());
        let due = "0\n0\n0\n7\n0\n0\norder 4 1\ndraft 2 4 1\ndraft 16 4 0\n";
        assert_eq!(answers_text(&answers), due);
    }

    #[test]
    fn a_fresh_desk_is_written_as_a_whole() {
        let asked = desk(&["desk 3"]);
        let with = |make: fn(&mut DeskWords)| {
            lend(
                &asked,
                RUBBISH,
                |_, desk| {
                    make(desk);
                    0
                },
                call,
            )
            .unwrap_err()
        };
        let due = "a fresh desk has a word that is not 0";
        assert_eq!(with(|_| ()), due);
        assert_eq!(with(|desk| (desk.wanted, desk.unwanted, desk.kept) = (0, 0, 0)), due);
        let rest = |desk: &mut DeskWords| {
            let draft_unwanted = desk.draft_unwanted;
            *desk = DeskWords { draft_unwanted, ..DeskWords::default() };
        };
        assert_eq!(with(rest), due);
    }

    /// 65 options are refused, and a desk for none is written.
    #[test]
    fn a_refused_fresh_desk_is_written_too() {
        let refused = |_, desk: &mut DeskWords| {
            fresh(0, desk);
            2
        };
        let asked = desk(&["desk 65", "set 1 fitted"]);
        assert_eq!(lend(&asked, RUBBISH, refused, call), Ok(asked.port_answers()));
    }

    #[test]
    fn a_refused_call_that_changes_the_desk_is_told() {
        let told = changed(&["set 4 out"], |desk| desk.unwanted = 8);
        assert_eq!(told, "a call that was refused, number 7, changed the desk");
        let told = changed(&["return 5"], |desk| desk.draft_wanted[4] = 1);
        assert_eq!(told, "a call that was refused, number 15, changed the desk");
        let told = changed(&["keep 17"], |desk| desk.kept = 1 << 16);
        assert_eq!(told, "a call that was refused, number 14, changed the desk");
    }

    #[test]
    fn what_no_answer_tells_is_looked_at() {
        let told = changed(&["set 1 out"], |desk| desk.options = 4);
        assert_eq!(told, "a desk for 3 options is one for 4");
        let told = changed(&["keep 1"], |desk| desk.kept |= 1 << 16);
        assert_eq!(told, "the word 0x10001 of kept drafts has another than 1 to 16");
        let told = changed(&["keep 1"], |desk| desk.draft_unwanted[1] = 4);
        assert_eq!(told, "draft 2 has words, and it is not kept");
        let told = changed(&["set 1 out"], |desk| desk.draft_wanted[15] = 4);
        assert_eq!(told, "draft 16 has words, and it is not kept");
    }

    #[test]
    fn a_word_beside_the_desk_is_looked_at() {
        for at in [0, BESIDE - 1] {
            let mut lent = Lent::new(DeskWords::default(), RUBBISH);
            assert_eq!(lent.lend(|_| 0), Ok(0));
            lent.before[at] = 0;
            assert_eq!(lent.lend(|_| 0), Err("a word beside the desk was written".to_string()));
            let mut lent = Lent::new(DeskWords::default(), RUBBISH);
            lent.after[at] ^= 1;
            assert_eq!(lent.lend(|_| 7), Err("a word beside the desk was written".to_string()));
        }
    }

    #[test]
    fn a_desk_of_any_words_comes_back_whole() {
        let mut words = to_port(&full_of(RUBBISH));
        (words.options, words.drafts[3]) = (7, (1, 2));
        let asked = State { desk: words, call: Call::Set { option: 7, fitted: true } };
        let after = lend_once(&asked, RUBBISH, call).unwrap();
        assert_eq!(state_text(&after), state_text(&asked.port_after()));
        assert_eq!(to_port(&of_port(&words)), words);
        let refused = State { call: Call::Keep { draft: 17 }, ..asked };
        let told = lend_once(&refused, RUBBISH, |desk, _| {
            desk.draft_wanted[0] ^= 1;
            14
        });
        let due = "a call that was refused, number 14, changed the desk";
        assert_eq!(told.unwrap_err(), due);
    }
}
