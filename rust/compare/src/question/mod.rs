//! What is asked of a checker, and what the port answers. A question is a file here, with a type that
//! is read from the fields of a case and asked of the port, and a variant of `Question`. Each checker
//! (under_test.rs, library.rs) says whether it takes it.

mod cheapest;
mod check;
mod desk;
mod join;
mod morning;
mod open;
mod page;
mod sites;
mod state;
mod terminal;
mod turns;

pub use cheapest::{quoted_text, read_quoted, Cheapest, Quoted};
pub use check::{Check, ORDER};
pub use desk::{answers_text, Answers, Desk};
pub use join::{joined_text, Join, Joined};
pub use morning::Morning;
pub use open::{tried_text, verdict_name, Open};
pub use page::Page;
pub use sites::{Site, Sites};
pub use state::{state_text, State};
pub use terminal::{after_text, After, Terminal};
pub use turns::{forced_name, settled_name, settled_text, Settled, Turns};

use crate::fields::key_and_value;
use crate::hex::bytes;
use port::{Ending, Outcome};

/// A question.
#[derive(Clone, Debug)]
pub enum Question {
    Check(Check),
    Morning(Morning),
    Open(Open),
    Sites(Sites),
    Terminal(Terminal),
    Page(Page),
    Desk(Desk),
    State(Box<State>),
    Join(Join),
    Turns(Turns),
    Cheapest(Cheapest),
}

impl Question {
    /// The question of these lines: `in` or `page` and all of standard input, `desk` and the number of
    /// options with a line for each call, or its name and then its fields.
    pub fn read(lines: &[&str]) -> Result<Question, String> {
        let (first, fields) = lines.split_first().ok_or("there is no question")?;
        match key_and_value(first) {
            ("in", hex) if fields.is_empty() => Ok(Check::of_program(bytes(hex)?).into()),
            ("check", "") => Ok(Check::read(fields)?.into()),
            ("morning", "") => Ok(Morning::read(fields)?.into()),
            ("open", "") => Ok(Open::read(fields)?.into()),
            ("sites", "") => Ok(Sites::read(fields)?.into()),
            ("terminal", "") => Ok(Terminal::read(fields)?.into()),
            ("page", hex) if fields.is_empty() => Ok(Page::of_program(bytes(hex)?).into()),
            ("filed", "") => Ok(Page::read(fields)?.into()),
            ("desk", options) => Ok(Desk::read(options, fields)?.into()),
            ("state", "") => Ok(State::read(fields)?.into()),
            ("join", "") => Ok(Join::read(fields)?.into()),
            ("turns", "") => Ok(Turns::read(fields)?.into()),
            ("cheapest", "") => Ok(Cheapest::read(fields)?.into()),
            (key, _) => Err(format!("`{key}` is no question")),
        }
    }

    /// What the port answers, as it is printed.
    pub fn port_printed(&self) -> String {
        match self {
            Question::Check(check) => check.port_outcome().to_string(),
            Question::Morning(morning) => in_turn(&morning.port_outcomes()),
            Question::Open(open) => tried_text(&open.port_tried()),
            Question::Sites(sites) => in_turn(&sites.port_outcomes()),
            Question::Terminal(terminal) => after_text(&terminal.port_after()),
            Question::Page(page) => page.port_page(),
            Question::Desk(desk) => answers_text(&desk.port_answers()),
            Question::State(state) => state_text(&state.port_after()),
            Question::Join(join) => joined_text(&join.port_joined()),
            Question::Turns(turns) => settled_text(&turns.port_settled()),
            Question::Cheapest(cheapest) => quoted_text(&cheapest.port_quoted()),
        }
    }
}

impl From<Check> for Question {
    fn from(check: Check) -> Question {
        Question::Check(check)
    }
}

impl From<Morning> for Question {
    fn from(morning: Morning) -> Question {
        Question::Morning(morning)
    }
}

impl From<Open> for Question {
    fn from(open: Open) -> Question {
        Question::Open(open)
    }
}

impl From<Sites> for Question {
    fn from(sites: Sites) -> Question {
        Question::Sites(sites)
    }
}

impl From<Terminal> for Question {
    fn from(terminal: Terminal) -> Question {
        Question::Terminal(terminal)
    }
}

impl From<Page> for Question {
    fn from(page: Page) -> Question {
        Question::Page(page)
    }
}

impl From<Desk> for Question {
    fn from(desk: Desk) -> Question {
        Question::Desk(desk)
    }
}

impl From<State> for Question {
    fn from(state: State) -> Question {
        Question::State(Box::new(state))
    }
}

impl From<Join> for Question {
    fn from(join: Join) -> Question {
        Question::Join(join)
    }
}

impl From<Turns> for Question {
    fn from(turns: Turns) -> Question {
        Question::Turns(turns)
    }
}

impl From<Cheapest> for Question {
    fn from(cheapest: Cheapest) -> Question {
        Question::Cheapest(cheapest)
    }
}

/// The outcomes of several checks as they are printed, one after the other, or the refusal of all of
/// them.
pub fn in_turn(outcomes: &Result<Vec<Outcome>, u32>) -> String {
    match outcomes {
        Ok(outcomes) => outcomes.iter().map(Outcome::to_string).collect(),
        Err(number) => Outcome::refused(*number).to_string(),
    }
}

/// An ending by its word and, where it has one, its number.
pub fn ending_name(ending: Ending) -> String {
    match ending.named() {
        (word, 0) => word.to_string(),
        (word, number) => format!("{word} {number}"),
    }
}

/// The first line in which what a checker prints is not what is due, with both lines.
pub fn first_difference(printed: &str, due: &str) -> String {
    let same = printed.lines().zip(due.lines()).take_while(|(left, right)| left == right).count();
    let line = |text: &str| match text.lines().nth(same) {
        Some(line) => format!("`{line}`"),
        None => "nothing".to_string(),
    };
    format!("line {} is {}, due is {}", same + 1, line(printed), line(due))
}

/// An order as the port takes it.
fn of_port(order: optbook::Order) -> port::Order {
    let optbook::Order { wanted, unwanted, standard } = order;
    port::Order { wanted, unwanted, standard }
}

#[cfg(test)]
mod tests {
    use super::*;

    #[test]
    fn the_first_line_that_differs_is_told() {
        let told = first_difference("can 0 0 0 1\nr 0 0 1\n", "can 0 0 0 1\n");
        assert_eq!(told, "line 2 is `r 0 0 1`, due is nothing");
        let told = first_difference("can 0 0 0 1\n", "cannot 0 0 0 1\n");
        assert_eq!(told, "line 1 is `can 0 0 0 1`, due is `cannot 0 0 0 1`");
    }

    #[test]
    fn outcomes_are_printed_in_turn_and_a_refusal_of_all_once() {
        let outcomes = vec![Outcome::refused(7), Outcome::refused(9)];
        assert_eq!(in_turn(&Ok(outcomes)), "refused 7 0 0 0\nrefused 9 0 0 0\n");
        assert_eq!(in_turn(&Err(13)), "refused 13 0 0 0\n");
        assert_eq!(in_turn(&Ok(Vec::new())), "");
    }

    #[test]
    fn an_ending_has_its_number() {
        assert_eq!(ending_name(port::CAN), "can");
        assert_eq!(ending_name(Ending::Refused(12)), "refused 12");
        assert_eq!(ending_name(Ending::Stopped(11)), "stopped 11");
    }
}
