//! `optbook desk`: a prompt at which an order is put together, kept as a draft and returned to, and checked.

use super::check::{limits, LIMITS};
use super::Verb;
use crate::arguments::Arguments;
use crate::ending::{Failure, Printed};
use crate::files::{mistake, name, on_one_line, read_sheet};
use crate::lines::{self, Line, MOST};
use optbook::session::{Answer, Session};
use std::fs::File;
use std::io::{self, BufRead, BufReader, ErrorKind, IsTerminal, Write};

pub const VERB: Verb = Verb {
    name: "desk",
    takes: "BOOK [FILE] [--allowance N] [--places N]",
    does: "puts an order together at a prompt, with drafts of it to come back to",
    example: "optbook desk examples/plant.book examples/plant.desk",
    more: "\
Commands are read from FILE, or else from standard input, one a line:

  want NAME...     the options are to be fitted
  without NAME...  the options are to be left out
  clear NAME...    there is no wish for the options
  keep D           keeps the order as draft D, 1 to 16, in place of what was kept under D
  return D         goes back to draft D: the order is what was last kept under D
  check            checks the order, as `optbook check` does
  show             shows the order, and the drafts that are kept
  help, quit       shows the commands and the options; ends, as the end of the input does

Setting a wish the other way replaces it, and clearing one that is not set alters nothing. Wishes that
stand in BOOK are set first. Each change is answered with the order that it leads to, or with the draft
that it keeps. `#` begins a comment, and a blank line is nothing.

A mistake, or a refusal (number 14: the draft is not 1 to 16; 15: it was never kept), is told on a line
of its own, with what was expected; then the order and the drafts are as they were before its line. A
terminal has a prompt, `desk> `; otherwise the number of the line stands before a mistake.

--allowance N, --places N  as of `optbook check`, for each check

Exit status: 0 at a terminal, and where no line is a mistake; 64 bad command line, 65 a mistake in BOOK
or, from a file or a pipe, in some line.
",
    files: (1, 2),
    flags: &LIMITS,
    repeated: &[],
    switches: &[],
    run,
};

const PROMPT: &str = "desk> ";

/// What is told of a line as a whole.
const NO_TEXT: &str = "a byte that is no text: expected UTF-8";

fn run(arguments: &Arguments) -> Result<Printed, Failure> {
    let limits = limits(arguments)?;
    let (book, commands) = match arguments.files.as_slice() {
        [book, commands] => (book, commands.as_str()),
        files => (&files[0], "-"),
    };
    if [book, commands] == ["-", "-"] {
        let what = "`-` is BOOK, and the commands come from standard input too: expected FILE";
        return Err(Failure::Usage(what.to_string()));
    }
    let sheet = read_sheet(std::slice::from_ref(book))?;
    let options = sheet.names.len();
    let opened = Session::open(sheet, limits)?;
    let mut session = opened.map_err(|refusal| mistake(book, refusal))?;
    let (mut input, is_terminal) = open(commands).map_err(|error| mistake(commands, error))?;
    let greeting = is_terminal.then(|| {
        let book = on_one_line(name(book));
        format!("a desk for the {options} options of {book}; `help` lists the commands\n")
    });
    let answer = |line: &str| session.answer(line);
    match converse(&mut input, greeting, &mut io::stdout(), answer) {
        Ok(mistakes) if is_terminal || mistakes.count == 0 => Ok(Printed::text(String::new())),
        Ok(mistakes) => Err(mistake(commands, mistakes.told())),
        Err(Broken::Input(error)) => Err(mistake(commands, error)),
        Err(Broken::Output(error)) => Err(Failure::Unwritten(error)),
    }
}

/// The commands, and whether they come from a terminal.
fn open(commands: &str) -> io::Result<(Box<dyn BufRead>, bool)> {
    match commands {
        "-" => Ok((Box::new(io::stdin().lock()), io::stdin().is_terminal())),
        file => {
            let file = File::open(file)?;
            let is_terminal = file.is_terminal();
            Ok((Box::new(BufReader::new(file)), is_terminal))
        }
    }
}

/// The lines that were a mistake: how many there are, and the first of them, counted from 1.
#[derive(Debug, Default, PartialEq, Eq)]
struct Mistakes {
    count: usize,
    first: usize,
}

/// What cannot be read or written.
#[derive(Debug)]
enum Broken {
    Input(io::Error),
    Output(io::Error),
}

impl Mistakes {
    fn add(&mut self, line: usize) {
        self.first = if self.count == 0 { line } else { self.first };
        self.count += 1;
    }

    fn told(&self) -> String {
        let Mistakes { count, first } = self;
        match count {
            1 => format!("line {first} is a mistake"),
            _ => format!("{count} lines are mistakes, and line {first} is the first"),
        }
    }
}

/// Answers each line of an input, up to the end of the session or of the input. With a greeting there is a
/// prompt. A reader of the answers who has seen enough ends it too.
fn converse(
    input: &mut impl BufRead,
    greeting: Option<String>,
    output: &mut impl Write,
    mut answer: impl FnMut(&str) -> Result<Answer, String>,
) -> Result<Mistakes, Broken> {
    let is_prompted = greeting.is_some();
    let prompt = if is_prompted { PROMPT } else { "" };
    let mut mistakes = Mistakes::default();
    let mut say = |text: &str| {
        let written = output.write_all(text.as_bytes()).and_then(|()| output.flush());
        match written {
            Ok(()) => Ok(true),
            Err(error) if error.kind() == ErrorKind::BrokenPipe => Ok(false),
            Err(error) => Err(Broken::Output(error)),
        }
    };
    let mut text = greeting.unwrap_or_default();
    for number in 1.. {
        if !say(&format!("{text}{prompt}"))? {
            break;
        }
        let read = lines::next(input).map_err(Broken::Input)?;
        // At a terminal an answer, and what follows the session, stand on lines of their own.
        if is_prompted && !matches!(read, Some((_, true))) {
            say("\n")?;
        }
        let Some((line, _)) = read else { break };
        let answered = match line {
            Line::Text(line) => answer(&line),
            Line::NoText => Err(NO_TEXT.to_string()),
            Line::TooLong => {
                Err(format!("the line has more than {MOST} bytes: expected a shorter one"))
            }
        };
        text = match answered {
            Ok(Answer::Text(text)) => text,
            Ok(Answer::End) => break,
            Err(what) => {
                mistakes.add(number);
                match is_prompted {
                    true => format!("{what}\n"),
                    false => format!("line {number}: {what}\n"),
                }
            }
        };
    }
    Ok(mistakes)
}

#[cfg(test)]
mod tests {
    use super::*;

    /// Answers a line with its text and a line feed, `quit` with the end, and `no` with a mistake.
    fn echo(line: &str) -> Result<Answer, String> {
        match line {
            "quit" => Ok(Answer::End),
            "no" => Err("no: expected yes".to_string()),
            _ => Ok(Answer::Text(format!("{line}\n"))),
        }
    }

    /// What a session prints, and its mistakes: how many, and the first.
    fn session(input: &[u8], greeting: Option<&str>) -> (String, (usize, usize)) {
        let mut output = Vec::new();
        let greeting = greeting.map(str::to_string);
        let Mistakes { count, first } =
            converse(&mut &input[..], greeting, &mut output, echo).unwrap();
        (String::from_utf8(output).unwrap(), (count, first))
    }

    #[test]
    fn the_help_of_the_verb_has_every_command() {
        let words = optbook::command::HELP.lines().map(|line| line.split(' ').next().unwrap());
        for word in words.filter(|word| *word != "quit") {
            assert!(VERB.more.contains(&format!("\n  {word}")), "{word}");
        }
        assert!(VERB.more.contains("\n  help, quit  "));
    }

    #[test]
    fn a_terminal_has_a_prompt_and_a_line_of_its_own_at_the_end() {
        let due = "a desk\ndesk> yes\ndesk> no: expected yes\ndesk> \n";
        assert_eq!(session(b"yes\nno\n", Some("a desk\n")), (due.to_string(), (1, 2)));
        assert_eq!(session(b"quit\nyes\n", Some("")), (PROMPT.to_string(), (0, 0)));
        let due = "desk> \nyes\ndesk> \n";
        assert_eq!(session(b"yes", Some("")), (due.to_string(), (0, 0)));
    }

    #[test]
    fn otherwise_there_is_none_and_a_mistake_has_its_line() {
        let due = "line 1: no: expected yes\nyes\nline 3: no: expected yes\n";
        assert_eq!(session(b"no\nyes\nno", None), (due.to_string(), (2, 1)));
        assert_eq!(session(b"", None), (String::new(), (0, 0)));
        assert_eq!(session(b"yes\nquit\nno\n", None), ("yes\n".to_string(), (0, 0)));
    }

    #[test]
    fn what_is_no_text_or_too_long_is_a_mistake_of_its_line() {
        let long = vec![b'x'; MOST + 1];
        let input = [b"\xff\n", &long[..], b"\nyes\n"].concat();
        let due = "line 1: a byte that is no text: expected UTF-8\n\
                   line 2: the line has more than 65536 bytes: expected a shorter one\nyes\n";
        assert_eq!(session(&input, None), (due.to_string(), (2, 1)));
    }

    #[test]
    fn mistakes_are_counted() {
        let mut mistakes = Mistakes::default();
        mistakes.add(4);
        assert_eq!(mistakes.told(), "line 4 is a mistake");
        mistakes.add(7);
        assert_eq!(mistakes.told(), "2 lines are mistakes, and line 4 is the first");
    }

    /// Takes so many bytes, and then fails in this way.
    struct Full(usize, ErrorKind);

    impl Write for Full {
        fn write(&mut self, bytes: &[u8]) -> io::Result<usize> {
            match bytes.len() <= self.0 {
                true => {
                    self.0 -= bytes.len();
                    Ok(bytes.len())
                }
                false => Err(self.1.into()),
            }
        }

        fn flush(&mut self) -> io::Result<()> {
            Ok(())
        }
    }

    #[test]
    fn a_reader_who_has_seen_enough_ends_it_and_another_failure_is_told() {
        let of = |kind| converse(&mut &b"yes\nno\nno\n"[..], None, &mut Full(4, kind), echo);
        assert_eq!(of(ErrorKind::BrokenPipe).unwrap(), Mistakes { count: 1, first: 2 });
        assert!(matches!(of(ErrorKind::StorageFull), Err(Broken::Output(_))));
    }

    /// An input that cannot be read.
    struct Unreadable;

    impl io::Read for Unreadable {
        fn read(&mut self, _: &mut [u8]) -> io::Result<usize> {
            Err(ErrorKind::PermissionDenied.into())
        }
    }

    #[test]
    fn an_input_that_cannot_be_read_is_told() {
        let mut input = BufReader::new(Unreadable);
        let told = converse(&mut input, None, &mut Vec::new(), echo);
        assert!(matches!(told, Err(Broken::Input(_))));
    }
}
