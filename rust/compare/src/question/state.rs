//! A call on a desk of any words: no run of calls need lead to them.

use super::desk::{call_text, read_call, Wishes};
use crate::fields::{numbers, values};
use port::{Call, DeskWords};

/// The drafts of a desk.
const DRAFTS: usize = 16;

/// A desk in words, and a call.
#[derive(Clone, Copy, Debug)]
pub struct State {
    pub desk: DeskWords,
    pub call: Call,
}

impl State {
    /// The question of these fields of a case.
    pub fn read(fields: &[&str]) -> Result<State, String> {
        let mut keys = ["draft"; DRAFTS + 3];
        (keys[0], keys[1], keys[DRAFTS + 2]) = ("numbers", "order", "call");
        let [first, order, drafts @ .., call] = values(keys, fields)?;
        let [options, kept] = numbers(first)?;
        let options = u32::try_from(options).map_err(|_| format!("{options} options"))?;
        let (wanted, unwanted) = wishes(order)?;
        let mut desk = DeskWords { options, wanted, unwanted, kept, ..DeskWords::default() };
        for (draft, words) in desk.drafts.iter_mut().zip(drafts) {
            *draft = wishes(words)?;
        }
        Ok(State { desk, call: read_call(call)? })
    }

    /// 0 or the refusal by the port, and the desk after the call.
    pub fn port_after(&self) -> (u32, DeskWords) {
        let mut desk = self.desk;
        (desk.call(self.call), desk)
    }

    /// The question as the lines of a case.
    pub fn told(&self) -> String {
        format!("state\n{}call {}", words_text(&self.desk), call_text(self.call))
    }
}

/// The wanted and the unwanted word of an order.
fn wishes(text: &str) -> Result<Wishes, String> {
    let [wanted, unwanted] = numbers(text)?;
    Ok((wanted, unwanted))
}

/// The words of a desk, as they stand on the lines of a case.
fn words_text(desk: &DeskWords) -> String {
    let DeskWords { options, wanted, unwanted, kept, drafts } = desk;
    let mut text = format!("numbers {options} {kept}\norder {wanted} {unwanted}\n");
    for (wanted, unwanted) in drafts {
        text += &format!("draft {wanted} {unwanted}\n");
    }
    text
}

/// The number of a call, and the words of the desk after it, as they are printed.
pub fn state_text((number, desk): &(u32, DeskWords)) -> String {
    format!("{number}\n{}", words_text(desk))
}

#[cfg(test)]
mod tests {
    use super::*;
    use crate::question::Question;

    /// Options in both words and above the last, a draft above the last, and words of drafts that are not
    /// kept.
    fn lines(call: &str) -> Vec<String> {
        let mut lines = vec!["state", "numbers 3 131076", "order 25 9"];
        let drafts: Vec<String> = (1..=16).map(|d| format!("draft {d} {}", 100 * d)).collect();
        lines.extend(drafts.iter().map(String::as_str));
        lines.push(call);
        lines.iter().map(ToString::to_string).collect()
    }

    fn read(lines: &[String]) -> Result<State, String> {
        let lines: Vec<&str> = lines.iter().map(String::as_str).collect();
        match Question::read(&lines)? {
            Question::State(state) => Ok(*state),
            question => panic!("{question:?} is no state"),
        }
    }

    #[test]
    fn a_state_is_read_from_its_fields_and_told_with_them() {
        let lines = lines("call set 3 out");
        let state = read(&lines).unwrap();
        let DeskWords { options, wanted, unwanted, kept, drafts } = state.desk;
        assert_eq!((options, wanted, unwanted, kept), (3, 25, 9, 131076));
        assert_eq!((drafts[0], drafts[15]), ((1, 100), (16, 1600)));
        assert_eq!(state.call, Call::Set { option: 3, fitted: false });
        assert_eq!(state.told(), lines.join("\n"));
    }

    #[test]
    fn what_is_due_is_told() {
        let all = lines("call keep 3");
        assert!(read(&all[..19]).unwrap_err().ends_with("are due, not 18 lines"));
        assert_eq!(read(&lines("keep 3")).unwrap_err(), "`call` is due, not `keep`");
        let mut many = all;
        many[1] = "numbers 4294967296 0".to_string();
        assert_eq!(read(&many).unwrap_err(), "4294967296 options");
    }

    #[test]
    fn the_desk_stands_after_the_number() {
        let of = |call: &str| state_text(&read(&lines(call)).unwrap().port_after());
        let drafts: String = (1..=16).map(|d| format!("draft {d} {}\n", 100 * d)).collect();
        let due = format!("0\nnumbers 3 131076\norder 3 300\n{drafts}");
        assert_eq!(of("call return 3"), due);
        let due = format!("15\nnumbers 3 131076\norder 25 9\n{drafts}");
        assert_eq!(of("call return 4"), due);
        let due = format!("0\nnumbers 3 131076\norder 25 8\n{drafts}");
        assert_eq!(of("call set 1 fitted"), due);
    }
}
