//! A session at a desk: what each command does to it, and what is answered. The desk is the library's, and
//! every wish goes through its calls.

use crate::command::{read, Command, HELP};
use crate::desk::{self, Desk};
use crate::engine::{check, Limits, Unlinked};
use crate::outcome::{in_words, refusal};
use crate::sheet::{Demand, Sheet};
use crate::text::set_text;
use crate::{number, Order};

/// A session: the book, the desk, and what a check may use.
pub struct Session {
    sheet: Sheet,
    desk: Desk,
    limits: Limits,
}

/// What a line is answered with.
#[derive(Clone, Debug, PartialEq, Eq)]
pub enum Answer {
    Text(String),
    End,
}

impl Session {
    /// A session at a fresh desk for the options of a sheet, on which the wishes of the sheet are set; or the
    /// refusal in words.
    pub fn open(sheet: Sheet, limits: Limits) -> Result<Result<Session, String>, Unlinked> {
        let opened = desk::fresh(sheet.names.len())?.and_then(|mut desk| {
            for (demand, _) in &sheet.demands {
                match demand {
                    Demand::Want(option) => desk.set(number(*option), true)?,
                    Demand::Without(option) => desk.set(number(*option), false)?,
                    Demand::Rule(_) | Demand::Standard(_) => (),
                }
            }
            Ok(Session { sheet, desk, limits })
        });
        Ok(opened.map_err(refusal))
    }

    /// What a line is answered with. A mistake, or a refusal, is told in words with what was expected, and then
    /// the order and the drafts are as they were before the line.
    pub fn answer(&mut self, line: &str) -> Result<Answer, String> {
        let text = match read(line, &self.sheet.names)? {
            None => String::new(),
            Some(Command::Wish { options, fitted }) => {
                let wish = |desk: &mut Desk, option: &u32| desk.set(*option, fitted);
                self.change(|desk| options.iter().try_for_each(|option| wish(desk, option)))?;
                self.order_line()
            }
            Some(Command::Clear { options }) => {
                self.change(|desk| options.iter().try_for_each(|option| desk.clear(*option)))?;
                self.order_line()
            }
            Some(Command::Keep { draft }) => {
                self.change(|desk| desk.keep(draft))?;
                let kept = self.desk.drafts().into_iter().filter(|(kept, _)| *kept == draft);
                kept.map(|kept| self.draft_line(kept)).collect()
            }
            Some(Command::Return { draft }) => {
                self.change(|desk| desk.return_to(draft))?;
                self.order_line()
            }
            Some(Command::Check) => self.checked()?,
            Some(Command::Show) => self.shown(),
            Some(Command::Help) => format!("{HELP}options: {}\n", self.sheet.names.join(" ")),
            Some(Command::Quit) => return Ok(Answer::End),
        };
        Ok(Answer::Text(text))
    }

    /// Changes the desk by calls of the library, all of them or, where one is refused, none.
    fn change(&mut self, calls: impl FnOnce(&mut Desk) -> Result<(), u32>) -> Result<(), String> {
        let mut changed = self.desk.clone();
        calls(&mut changed).map_err(|number| self.refused(number))?;
        self.desk = changed;
        Ok(())
    }

    /// A refusal in words, and what was expected.
    fn refused(&self, number: u32) -> String {
        let expected = match number {
            14 => "expected one of these".to_string(),
            15 => match self.desk.drafts().as_slice() {
                [] => "expected `keep` before it, for none is kept yet".to_string(),
                drafts => {
                    let kept: Vec<String> = drafts.iter().map(|(d, _)| d.to_string()).collect();
                    format!("expected a kept one, of {}", kept.join(" "))
                }
            },
            _ => "expected a name of the book".to_string(),
        };
        format!("{}: {expected}", refusal(number))
    }

    /// The proved check of the order, with the standard options of the book, in words.
    fn checked(&self) -> Result<String, String> {
        let order = Order { standard: self.sheet.order().standard, ..self.desk.order() };
        match check(&self.sheet.book(), order, self.limits) {
            Ok(checked) => Ok(in_words(&checked, &self.sheet.names)),
            Err(Unlinked) => Err("the proved library is missing".to_string()),
        }
    }

    fn shown(&self) -> String {
        let mut text = self.order_line();
        let standard = self.sheet.order().standard;
        if standard != 0 {
            text += &format!("standard: {}\n", set_text(standard, &self.sheet.names));
        }
        text.extend(self.desk.drafts().into_iter().map(|draft| self.draft_line(draft)));
        text
    }

    fn order_line(&self) -> String {
        format!("order: {}\n", wishes_text(self.desk.order(), &self.sheet.names))
    }

    fn draft_line(&self, (draft, order): (u32, Order)) -> String {
        format!("draft {draft}: {}\n", wishes_text(order, &self.sheet.names))
    }
}

/// The wishes of an order, by names.
fn wishes_text(order: Order, names: &[String]) -> String {
    let [wanted, unwanted] = [order.wanted, order.unwanted].map(|set| set_text(set, names));
    format!("want {wanted}; without {unwanted}")
}

#[cfg(test)]
mod tests {
    use super::*;

    #[test]
    fn wishes_are_told_by_names() {
        let names = ["drum", "roof", "screen"].map(str::to_string);
        let order = Order { wanted: 5, unwanted: 2, standard: 7 };
        assert_eq!(wishes_text(order, &names), "want drum screen; without roof");
        assert_eq!(wishes_text(Order::default(), &names), "want (none); without (none)");
        assert_eq!([number(1), number(4), number(1 << 63)], [1, 3, 64]);
    }

    #[cfg(not(feature = "proved"))]
    #[test]
    fn without_the_library_there_is_no_session() {
        assert_eq!(Session::open(Sheet::default(), Limits::default()).err(), Some(Unlinked));
    }

    #[cfg(feature = "proved")]
    mod proved {
        use super::*;

        const BOOK: &str = "options: a b c\n!a | b\nstandard: c\nwant: a\nwithout: b\n";

        /// What each of these lines is answered with.
        fn answers(book: &str, lines: &[&str]) -> Vec<Result<Answer, String>> {
            let sheet = Sheet::of("b", book).unwrap();
            let mut session = Session::open(sheet, Limits::default()).unwrap().unwrap();
            lines.iter().map(|line| session.answer(line)).collect()
        }

        fn text(text: &str) -> Result<Answer, String> {
            Ok(Answer::Text(text.to_string()))
        }

        #[test]
        fn the_wishes_of_the_book_are_set_first_and_may_be_cleared() {
            let due = [
                text("order: want a; without b\nstandard: c\n"),
                text("order: want (none); without (none)\n"),
                text("order: want b; without c\n"),
                text("order: want b; without c\nstandard: c\n"),
            ];
            let lines = ["show", "clear b a", "want b", "without c", "show"];
            let given = answers(BOOK, &lines);
            assert_eq!([&given[..2], &given[3..]].concat(), due);
        }

        #[test]
        fn drafts_are_kept_returned_to_and_shown() {
            let lines =
                ["keep 3", "without a", "clear b", "keep 16", "return 3", "want c", "show", "quit"];
            let due = [
                text("draft 3: want a; without b\n"),
                text("order: want (none); without a b\n"),
                text("order: want (none); without a\n"),
                text("draft 16: want (none); without a\n"),
                text("order: want a; without b\n"),
                text("order: want a c; without b\n"),
                text(
                    "order: want a c; without b\nstandard: c\ndraft 3: want a; without b\n\
                     draft 16: want (none); without a\n",
                ),
                Ok(Answer::End),
            ];
            assert_eq!(answers(BOOK, &lines), due);
        }

        #[test]
        fn a_refusal_is_told_with_what_was_expected_and_alters_nothing() {
            let fourteen = refusal(14) + ": expected one of these";
            let fifteen = refusal(15) + ": expected ";
            let lines = ["keep 0", "return 17", "return 4", "keep 7", "keep 9", "return 4", "show"];
            let given = answers("options: a b\nwant: b\n", &lines);
            assert_eq!(given[..2], [Err(fourteen.clone()), Err(fourteen)]);
            let none = format!("{fifteen}`keep` before it, for none is kept yet");
            assert_eq!(given[2], Err(none));
            assert_eq!(given[5], Err(format!("{fifteen}a kept one, of 7 9")));
            let due = "order: want b; without (none)\ndraft 7: want b; without (none)\n\
                       draft 9: want b; without (none)\n";
            assert_eq!(given[6], text(due));
        }

        /// The second name of the line is no option's, so that the first is not set either.
        #[test]
        fn a_mistake_alters_nothing() {
            let lines = ["want b c d", "clear a x", "without b b", "", "# clear a", "show"];
            let given = answers("options: a b c\nwant: a\n", &lines);
            assert!(given[..3].iter().all(Result::is_err), "{given:?}");
            assert_eq!(given[3..5], [text(""), text("")]);
            assert_eq!(given[5], text("order: want a; without (none)\n"));
        }

        #[test]
        fn a_check_is_of_the_order_and_the_standard_options() {
            let book = "options: a b\n!a | !b\nstandard: b\n";
            let given = answers(book, &["check", "want a", "check", "without b", "check"]);
            let verdict = |answer: &Result<Answer, String>| match answer {
                Ok(Answer::Text(text)) => text.split(':').next().unwrap().to_string(),
                other => panic!("{other:?}"),
            };
            let verdicts = [verdict(&given[0]), verdict(&given[2]), verdict(&given[4])];
            assert_eq!(verdicts, ["can be built", "cannot be built", "can be built"]);
        }

        #[test]
        fn the_help_names_the_options() {
            let given = answers("options: a b c\n", &["help"]);
            assert_eq!(given, [text(&format!("{HELP}options: a b c\n"))]);
        }
    }
}
