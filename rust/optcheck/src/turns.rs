//! What settling the free options in turns ends with, the buyer first and then the planner.

/// What the planner answers: the option is left out, or fitted.
#[derive(Clone, Copy, Debug, PartialEq, Eq)]
pub enum Response {
    Out,
    Fitted,
}

/// Whether the planner can force that every rule and wish is kept, whatever the buyer says, and the planner's
/// answers on the second free option to the buyer's two choices on the first. With an answer the planner can
/// still force it; it is to leave out where both serve. There is none where neither serves, or where there is
/// no second free option.
#[derive(Clone, Copy, Debug, PartialEq, Eq)]
pub struct Turns {
    pub forced: bool,
    pub to_out: Option<Response>,
    pub to_fitted: Option<Response>,
}

impl Response {
    /// The answer in a word, of which 0 is none.
    pub fn of_word(word: u32) -> Option<Response> {
        match word {
            0 => None,
            1 => Some(Response::Out),
            _ => Some(Response::Fitted),
        }
    }
}

#[cfg(test)]
mod tests {
    use super::*;

    #[test]
    fn an_answers_word_is_the_headers() {
        let header = include_str!("../include/optcheck.h");
        let answers = [
            ("NO_ANSWER", 0, None),
            ("LEAVE_OUT", 1, Some(Response::Out)),
            ("FIT", 2, Some(Response::Fitted)),
        ];
        for (name, word, answer) in answers {
            assert!(header.contains(&format!("#define OPTCHECK_{name} {word}u\n")), "{name}");
            assert_eq!(Response::of_word(word), answer);
        }
    }
}
