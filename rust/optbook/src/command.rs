//! The commands of a session at a desk, one a line: a word, and names of options or a draft's number after
//! it. `#` begins a comment. A line is read whole before anything is done.

/// A command. Options and drafts are numbers, the first being 1.
#[derive(Clone, Debug, PartialEq, Eq)]
pub enum Command {
    Wish { options: Vec<u32>, fitted: bool },
    Clear { options: Vec<u32> },
    Keep { draft: u32 },
    Return { draft: u32 },
    Check,
    Show,
    Help,
    Quit,
}

/// What the commands are, for one who asks.
pub const HELP: &str = "\
want NAME...     the options are to be fitted
without NAME...  the options are to be left out
clear NAME...    there is no wish for the options
keep D           keeps the order as draft D, 1 to 16, in place of what was kept under D
return D         goes back to draft D: the order is what was last kept under D
check            checks the order against the book, with the book's standard options
show             shows the order, and the drafts that are kept
help             shows this
quit             ends the session, as the end of the input does
";

/// The most characters of a word that are told of a mistake.
const SHOWN: usize = 40;

/// The command on a line, over options with these names; none on one that is blank but for a comment. A
/// mistake is told with what was expected.
pub fn read(line: &str, names: &[String]) -> Result<Option<Command>, String> {
    let mut words = line.split('#').next().unwrap_or("").split_whitespace();
    let Some(word) = words.next() else { return Ok(None) };
    let rest: Vec<&str> = words.collect();
    let alone = |command| match rest.is_empty() {
        true => Ok(command),
        false => Err(format!("other words stand after `{word}`: expected it alone on its line")),
    };
    let command = match word {
        "want" => Command::Wish { options: options(word, &rest, names)?, fitted: true },
        "without" => Command::Wish { options: options(word, &rest, names)?, fitted: false },
        "clear" => Command::Clear { options: options(word, &rest, names)? },
        "keep" => Command::Keep { draft: draft(word, &rest)? },
        "return" => Command::Return { draft: draft(word, &rest)? },
        "check" => alone(Command::Check)?,
        "show" => alone(Command::Show)?,
        "help" => alone(Command::Help)?,
        "quit" => alone(Command::Quit)?,
        _ => {
            let word = shown(word);
            return Err(format!(
                "`{word}` is no command: expected want, without, clear, keep, return, check, show, \
                 help or quit"
            ));
        }
    };
    Ok(Some(command))
}

/// The options with these names, of which there is one at least.
fn options(word: &str, rest: &[&str], names: &[String]) -> Result<Vec<u32>, String> {
    if rest.is_empty() {
        return Err(format!("`{word}` names no option: expected one or more after it"));
    }
    let mut options = Vec::new();
    for name in rest {
        let Some(index) = names.iter().position(|known| known == name) else {
            let name = shown(name);
            return Err(format!(
                "no option is named `{name}`: expected a name of the book, which `help` lists"
            ));
        };
        let option = index as u32 + 1;
        if options.contains(&option) {
            return Err(format!("`{name}` stands twice: expected it once"));
        }
        options.push(option);
    }
    Ok(options)
}

/// The draft's number, which alone stands after a word. One that is too large for the library's calls is the
/// largest that they take: whether it is a draft's is theirs to say.
fn draft(word: &str, rest: &[&str]) -> Result<u32, String> {
    let expected = format!("expected a draft, 1 to 16, as in `{word} 3`");
    match rest {
        [] => Err(format!("`{word}` has no number: {expected}")),
        [number] if number.bytes().all(|byte| byte.is_ascii_digit()) => {
            Ok(number.parse().unwrap_or(u32::MAX))
        }
        [number] => Err(format!("`{}` is no number: {expected}", shown(number))),
        _ => Err(format!("more than one word stands after `{word}`: {expected}")),
    }
}

/// A word as it is told of a mistake: its beginning where it is long, and nothing that would move on a
/// terminal.
fn shown(word: &str) -> String {
    let mut shown: String = word.chars().take(SHOWN).collect();
    if shown.len() < word.len() {
        shown += "...";
    }
    shown.replace(char::is_control, "?")
}

#[cfg(test)]
mod tests {
    use super::*;

    fn of(line: &str) -> Result<Option<Command>, String> {
        read(line, &["drum", "roof", "screen"].map(str::to_string))
    }

    fn mistake(line: &str) -> String {
        of(line).unwrap_err()
    }

    #[test]
    fn each_command_is_read() {
        let wish = |options: &[u32], fitted| Command::Wish { options: options.to_vec(), fitted };
        let due = [
            ("want screen drum", wish(&[3, 1], true)),
            ("  without\troof # not yet", wish(&[2], false)),
            ("clear drum roof screen\r", Command::Clear { options: vec![1, 2, 3] }),
            ("keep 3", Command::Keep { draft: 3 }),
            ("return 16", Command::Return { draft: 16 }),
            ("check", Command::Check),
            ("show#", Command::Show),
            ("help", Command::Help),
            ("quit # for today", Command::Quit),
        ];
        for (line, command) in due {
            assert_eq!(of(line), Ok(Some(command)), "{line}");
        }
    }

    #[test]
    fn a_blank_line_is_nothing() {
        for line in ["", " \t ", "# want drum", "  # keep 3"] {
            assert_eq!(of(line), Ok(None));
        }
    }

    /// Numbers that are no draft's are the library's to refuse.
    #[test]
    fn a_drafts_number_is_any_that_the_library_takes() {
        for (text, draft) in [("0", 0), ("17", 17), ("003", 3), ("4294967295", u32::MAX)] {
            assert_eq!(of(&format!("keep {text}")), Ok(Some(Command::Keep { draft })));
        }
        let large = Ok(Some(Command::Return { draft: u32::MAX }));
        assert_eq!(of("return 99999999999999999999999"), large);
    }

    #[test]
    fn each_mistake_is_told_with_what_was_expected() {
        let draft = "expected a draft, 1 to 16, as in `keep 3`";
        let unknown = "expected a name of the book, which `help` lists";
        let due = [
            ("want", "`want` names no option: expected one or more after it".to_string()),
            ("clear # drum", "`clear` names no option: expected one or more after it".to_string()),
            ("want drum dram", format!("no option is named `dram`: {unknown}")),
            ("without 2", format!("no option is named `2`: {unknown}")),
            ("clear !drum", format!("no option is named `!drum`: {unknown}")),
            ("want roof drum roof", "`roof` stands twice: expected it once".to_string()),
            ("keep", format!("`keep` has no number: {draft}")),
            ("keep three", format!("`three` is no number: {draft}")),
            ("keep -1", format!("`-1` is no number: {draft}")),
            ("keep +3", format!("`+3` is no number: {draft}")),
            ("keep 3 4", format!("more than one word stands after `keep`: {draft}")),
            (
                "check drum",
                "other words stand after `check`: expected it alone on its line".to_string(),
            ),
            (
                "want: drum",
                "`want:` is no command: expected want, without, clear, keep, return, check, show, \
                 help or quit"
                    .to_string(),
            ),
        ];
        for (line, what) in due {
            assert_eq!(mistake(line), what, "{line}");
        }
        assert!(mistake("return x").ends_with("as in `return 3`"));
    }

    #[test]
    fn long_words_and_control_characters_are_not_told_as_they_are() {
        let told = mistake(&format!("want {}", "é".repeat(5000)));
        assert!(told.starts_with(&format!("no option is named `{}...`: ", "é".repeat(40))));
        let told = mistake("want \u{1b}[2J\u{0}");
        assert!(told.starts_with("no option is named `?[2J?`: "), "{told}");
        assert!(mistake("\u{7}").starts_with("`?` is no command: "));
        let forty = "x".repeat(40);
        assert!(mistake(&forty).starts_with(&format!("`{forty}` is no command")));
    }

    #[test]
    fn the_help_has_every_command() {
        let words: Vec<&str> = HELP.lines().map(|line| line.split(' ').next().unwrap()).collect();
        let due = "want, without, clear, keep, return, check, show, help or quit";
        assert_eq!(words.join(", ").replace(", quit", " or quit"), due);
        assert!(mistake("commands").ends_with(due));
    }
}
