//! The checkers that are compared: a program that reads standard input and prints the outcome, with one
//! that prints the page, the proved static library (library.rs), and the port.

use crate::question::Question;
use std::io::{ErrorKind, Write};
use std::process::{Command, Stdio};

/// A checker under test.
pub trait UnderTest {
    fn name(&self) -> String;

    /// The checker can be asked this question.
    fn takes(&self, question: &Question) -> bool;

    /// The answer as it is printed.
    fn printed(&mut self, question: &Question) -> Result<String, String>;
}

/// The independent implementation.
pub struct Port;

impl UnderTest for Port {
    fn name(&self) -> String {
        "port".to_string()
    }

    fn takes(&self, _: &Question) -> bool {
        true
    }

    fn printed(&mut self, question: &Question) -> Result<String, String> {
        Ok(question.port_printed())
    }
}

/// A program at a path that prints the outcome and, where it is given, one that prints the page.
pub struct Program {
    pub path: String,
    pub page: Option<String>,
}

impl UnderTest for Program {
    fn name(&self) -> String {
        match &self.page {
            Some(page) => format!("programs {} and {page}", self.path),
            None => format!("program {}", self.path),
        }
    }

    /// A program checks one order, with its own places and allowance.
    fn takes(&self, question: &Question) -> bool {
        self.asked(question).is_some()
    }

    fn printed(&mut self, question: &Question) -> Result<String, String> {
        let (path, input) = self.asked(question).ok_or("a question that a program is not asked")?;
        run(path, input).map_err(|error| format!("{path}: {error}"))
    }
}

impl Program {
    /// The path of the program that answers the question, and its standard input; none where none does.
    fn asked<'a>(&'a self, question: &'a Question) -> Option<(&'a str, &'a [u8])> {
        match question {
            Question::Check(check) if check.is_of_program() => Some((&self.path, &check.input)),
            Question::Page(page) if page.is_of_program() => {
                Some((self.page.as_deref()?, &page.input))
            }
            Question::Check(_)
            | Question::Morning(_)
            | Question::Open(_)
            | Question::Sites(_)
            | Question::Terminal(_)
            | Question::Page(_)
            | Question::Desk(_)
            | Question::State(_)
            | Question::Join(_)
            | Question::Turns(_)
            | Question::Cheapest(_) => None,
        }
    }
}

/// What the program writes to standard output. It may end without reading all of its input.
fn run(path: &str, input: &[u8]) -> std::io::Result<String> {
    let mut command = Command::new(path);
    command.stdin(Stdio::piped()).stdout(Stdio::piped()).stderr(Stdio::inherit());
    let mut child = command.spawn()?;
    let mut stdin = child.stdin.take().expect("standard input is piped");
    match stdin.write_all(input) {
        Err(error) if error.kind() != ErrorKind::BrokenPipe => return Err(error),
        _ => drop(stdin),
    }
    let output = child.wait_with_output()?;
    Ok(String::from_utf8_lossy(&output.stdout).into_owned())
}

/// A checker that says the same of every question.
#[cfg(test)]
pub struct Says(pub &'static str);

#[cfg(test)]
impl UnderTest for Says {
    fn name(&self) -> String {
        "made".to_string()
    }

    fn takes(&self, _: &Question) -> bool {
        true
    }

    fn printed(&mut self, _: &Question) -> Result<String, String> {
        Ok(self.0.to_string())
    }
}

#[cfg(test)]
mod tests {
    use super::*;
    use crate::kinds::case;
    use crate::question::{Check, Page};
    use crate::{cheapest, desks, joins, mornings, terminals, turns, undecided};

    fn program(path: &str, page: Option<&str>) -> Program {
        Program { path: path.to_string(), page: page.map(str::to_string) }
    }

    #[test]
    fn a_program_gets_the_input_and_its_output_comes_back() {
        let mut echo = program("cat", Some("true"));
        let check = Check::of_program(b"as it was".to_vec());
        assert_eq!(echo.printed(&check.into()), Ok("as it was".to_string()));
    }

    #[test]
    fn a_page_comes_from_the_program_that_prints_it() {
        let mut programs = program("true", Some("cat"));
        let page = Page::of_program(b"a page".to_vec());
        assert_eq!(programs.printed(&page.clone().into()), Ok("a page".to_string()));
        assert_eq!(programs.name(), "programs true and cat");
        let mut alone = program("cat", None);
        assert!(!alone.takes(&page.clone().into()));
        assert!(alone.printed(&page.into()).is_err());
        assert_eq!(alone.name(), "program cat");
    }

    #[test]
    fn a_program_that_reads_nothing_is_no_error() {
        let mut silent = program("true", None);
        assert_eq!(silent.printed(&case(1, 1).check.into()), Ok(String::new()));
    }

    #[test]
    fn a_missing_program_is_named() {
        let mut missing = program("./no-such-program", Some("./no-such-page-program"));
        let error = missing.printed(&case(1, 1).check.into()).unwrap_err();
        assert!(error.starts_with("./no-such-program: "), "{error}");
        let error = missing.printed(&Page::of_program(Vec::new()).into()).unwrap_err();
        assert!(error.starts_with("./no-such-page-program: "), "{error}");
    }

    #[test]
    fn a_program_takes_its_own_limits_and_one_order_only() {
        let program = program("cat", Some("cat"));
        let own = case(1, 1).check;
        let page = Page::of_program(own.input.clone());
        assert!(program.takes(&page.clone().into()));
        assert!(!program.takes(&Page { allowance: 3, ..page }.into()));
        assert!(!program.takes(&own.with_limits(own.places, 3).into()));
        assert!(program.takes(&own.into()));
        assert!(!program.takes(&mornings::morning(1, 1).into()));
        assert!(!program.takes(&undecided::open(1, 1).into()));
        assert!(!program.takes(&terminals::sites(1, 1).into()));
        assert!(!program.takes(&terminals::terminal(1, 1).into()));
        assert!(!program.takes(&desks::desk(1, 1).into()));
        assert!(!program.takes(&desks::state(1, 1).into()));
        assert!(!program.takes(&joins::join(1, 1).into()));
        assert!(!program.takes(&turns::turns(1, 1).into()));
        assert!(!program.takes(&cheapest::cheapest(1, 1).into()));
    }
}
