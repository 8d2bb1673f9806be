//! A desk: calls in their sequence, from a fresh desk for so many options.

use crate::fields::{key_and_value, numbers};
use port::{Call, Standing};

/// The numbers of drafts.
const DRAFTS: std::ops::RangeInclusive<u32> = 1..=16;

/// A desk: the number of options, and the calls.
#[derive(Clone, Debug)]
pub struct Desk {
    pub options: u32,
    pub calls: Vec<Call>,
}

/// An order in words: its wanted and its unwanted options.
pub type Wishes = (u64, u64);

/// What comes of a desk: 0 or the refusal of the fresh desk and of each call, the order at the end, and
/// each kept draft with its number, lowest first.
#[derive(Clone, Debug, PartialEq, Eq)]
pub struct Answers {
    pub numbers: Vec<u32>,
    pub order: Wishes,
    pub drafts: Vec<(u32, Wishes)>,
}

impl Desk {
    /// The desk for so many options, and the calls of these lines.
    pub fn read(options: &str, lines: &[&str]) -> Result<Desk, String> {
        let [options] = numbers(options)?;
        let calls = lines.iter().map(|line| read_call(line)).collect::<Result<_, _>>()?;
        Ok(Desk { options, calls })
    }

    /// The desk with so many of its calls alone.
    pub fn first(&self, calls: usize) -> Desk {
        Desk { options: self.options, calls: self.calls[..calls].to_vec() }
    }

    /// What comes of the port's desk, which looks back through its calls.
    pub fn port_answers(&self) -> Answers {
        let (fresh, mut desk) = port::Desk::fresh(self.options);
        let mut numbers = vec![fresh];
        numbers.extend(self.calls.iter().map(|&call| desk.call(call)));
        let draft = |draft| Some((draft, wishes(&desk.draft(draft)?)));
        let drafts = DRAFTS.filter_map(draft).collect();
        Answers { numbers, order: wishes(&desk.order()), drafts }
    }

    /// The desk as the lines of a case.
    pub fn told(&self) -> String {
        let calls = self.calls.iter().map(|&call| format!("\n{}", call_text(call)));
        format!("desk {}{}", self.options, calls.collect::<String>())
    }
}

/// How the options stand, option 1 first, in words.
fn wishes(order: &[Standing]) -> Wishes {
    let word = |standing| {
        let options = order.iter().enumerate().filter(|(_, stands)| **stands == standing);
        options.map(|(index, _)| optbook::option(index)).sum()
    };
    (word(Standing::Fitted), word(Standing::LeftOut))
}

/// The answers as they are printed.
pub fn answers_text(answers: &Answers) -> String {
    let Answers { numbers, order: (wanted, unwanted), drafts } = answers;
    let mut text: String = numbers.iter().map(|number| format!("{number}\n")).collect();
    text += &format!("order {wanted} {unwanted}\n");
    for (draft, (wanted, unwanted)) in drafts {
        text += &format!("draft {draft} {wanted} {unwanted}\n");
    }
    text
}

/// The call on a line.
pub fn read_call(line: &str) -> Result<Call, String> {
    let (key, value) = key_and_value(line);
    let number = || numbers(value).map(|[number]| number);
    match key {
        "set" => match value.split_once(' ') {
            Some((option, way @ ("fitted" | "out"))) => {
                let [option] = numbers(option)?;
                Ok(Call::Set { option, fitted: way == "fitted" })
            }
            _ => Err(format!("an option and `fitted` or `out` are due, not `{value}`")),
        },
        "clear" => Ok(Call::Clear { option: number()? }),
        "keep" => Ok(Call::Keep { draft: number()? }),
        "return" => Ok(Call::Return { draft: number()? }),
        _ => Err(format!("`{key}` is no call")),
    }
}

/// A call as it stands on a line.
pub fn call_text(call: Call) -> String {
    match call {
        Call::Set { option, fitted: true } => format!("set {option} fitted"),
        Call::Set { option, fitted: false } => format!("set {option} out"),
        Call::Clear { option } => format!("clear {option}"),
        Call::Keep { draft } => format!("keep {draft}"),
        Call::Return { draft } => format!("return {draft}"),
    }
}

#[cfg(test)]
mod tests {
    use super::*;
    use crate::question::Question;

    const LINES: [&str; 7] =
        ["desk 64", "set 3 fitted", "set 64 out", "keep 16", "clear 3", "return 16", "keep 2"];

    fn read(lines: &[&str]) -> Result<Desk, String> {
        match Question::read(lines)? {
            Question::Desk(desk) => Ok(desk),
            question => panic!("{question:?} is no desk"),
        }
    }

    #[test]
    fn a_desk_is_read_from_its_lines_and_told_with_them() {
        let desk = read(&LINES).unwrap();
        assert_eq!((desk.options, desk.calls.len()), (64, 6));
        assert_eq!(desk.calls[1], Call::Set { option: 64, fitted: false });
        assert_eq!(desk.told(), LINES.join("\n"));
        assert_eq!(desk.first(2).told(), LINES[..3].join("\n"));
        assert_eq!(read(&LINES[..1]).unwrap().told(), "desk 64");
    }

    #[test]
    fn a_line_that_is_no_call_is_told() {
        let told = |line: &str| read(&["desk 3", line]).unwrap_err();
        assert_eq!(told("drop 3"), "`drop` is no call");
        assert_eq!(told("keep"), "1 numbers are due, not ``");
        assert_eq!(told("keep 3 4"), "1 numbers are due, not `3 4`");
        let due = "an option and `fitted` or `out` are due, not ";
        assert_eq!(told("set 3"), format!("{due}`3`"));
        assert_eq!(told("set 3 in"), format!("{due}`3 in`"));
        assert_eq!(told("set -3 out"), "1 numbers are due, not `-3`");
        assert_eq!(read(&["desk"]).unwrap_err(), "1 numbers are due, not ``");
        assert_eq!(read(&["desk 4294967296"]).unwrap_err(), "1 numbers are due, not `4294967296`");
    }

    #[test]
    fn the_ports_answers_stand_one_a_line() {
        let text = answers_text(&read(&LINES).unwrap().port_answers());
        let high = 1_u64 << 63;
        let due =
            format!("0\n0\n0\n0\n0\n0\n0\norder 4 {high}\ndraft 2 4 {high}\ndraft 16 4 {high}\n");
        assert_eq!(text, due);
        let refused = ["desk 65", "set 1 fitted", "keep 17", "return 1"];
        let text = answers_text(&read(&refused).unwrap().port_answers());
        assert_eq!(text, "2\n7\n14\n15\norder 0 0\n");
    }
}
