//! Files of cases with the answer that must be given to each: `case NAME`, the question, `out`, the
//! lines of the answer, `end`. The question is `in HEX` or `page HEX`, all of standard input of a
//! program, `desk N` with its calls on the lines after it, or a line that names it with its fields on
//! the lines after it. Each checker must print the answer text for text.

use crate::question::{first_difference, Question};
use crate::under_test::UnderTest;
use std::collections::BTreeMap;
use std::fmt::Write;

/// A case: its name, what is asked, and what must be printed.
struct Vector {
    name: String,
    question: Question,
    answer: String,
}

/// How the cases of a file went: those that agree wherever they can be asked, and those that differ
/// somewhere.
#[derive(Debug, Default, PartialEq, Eq)]
pub struct Score {
    pub agree: usize,
    pub differ: Vec<String>,
}

/// Runs a file's cases through each checker. The text has a line for each difference, and then what
/// could not be asked, by name.
pub fn run(tested: &mut [Box<dyn UnderTest>], text: &str) -> Result<(Score, String), String> {
    let mut score = Score::default();
    let mut told = String::new();
    let mut not_asked: BTreeMap<String, Vec<String>> = BTreeMap::new();
    for Vector { name, question, answer } in read(text)? {
        let mut differs = false;
        for checker in tested.iter_mut() {
            if !checker.takes(&question) {
                let what = format!("not asked of the {}", checker.name());
                not_asked.entry(what).or_default().push(name.clone());
                continue;
            }
            let difference = match checker.printed(&question) {
                Ok(printed) if printed == answer => continue,
                Ok(printed) => first_difference(&printed, &answer),
                Err(error) => error,
            };
            let _ = writeln!(told, "case {name} differs, {}: {difference}", checker.name());
            differs = true;
        }
        match differs {
            true => score.differ.push(name),
            false => score.agree += 1,
        }
    }
    for (what, names) in not_asked {
        let _ = writeln!(told, "{what} ({}): {}", names.len(), names.join(", "));
    }
    Ok((score, told))
}

/// A case whose question is standard input of a program: which of the two, the input and the answer.
pub struct ProgramCase {
    pub program: Prints,
    pub input: Vec<u8>,
    pub answer: String,
}

/// What a program prints.
#[derive(Clone, Copy, Debug, PartialEq, Eq)]
pub enum Prints {
    Outcome,
    Page,
}

/// The cases of a file whose question is standard input of a program.
pub fn program_cases(text: &str) -> Result<Vec<ProgramCase>, String> {
    let of_program = |Vector { question, answer, .. }: Vector| {
        let (program, input) = match question {
            Question::Check(check) if check.is_of_program() => (Prints::Outcome, check.input),
            Question::Page(page) if page.is_of_program() => (Prints::Page, page.input),
            _ => return None,
        };
        Some(ProgramCase { program, input, answer })
    };
    Ok(read(text)?.into_iter().filter_map(of_program).collect())
}

/// The cases of a file, of which there is one at least.
fn read(text: &str) -> Result<Vec<Vector>, String> {
    let mut vectors = Vec::new();
    let mut lines = text.lines();
    while let Some(line) = lines.next() {
        let name = line.strip_prefix("case ").ok_or(format!("`case` is due, not `{line}`"))?;
        let mut up_to = |last: &str| {
            let mut part = Vec::new();
            loop {
                match lines.next() {
                    Some(line) if line == last => return Ok(part),
                    Some(line) => part.push(line),
                    None => return Err(format!("case {name} has no `{last}`")),
                }
            }
        };
        let (lines, answer) = (up_to("out")?, up_to("end")?);
        let question = Question::read(&lines).map_err(|what| format!("case {name}: {what}"))?;
        let answer = answer.iter().map(|line| format!("{line}\n")).collect();
        vectors.push(Vector { name: name.to_string(), question, answer });
    }
    match vectors.is_empty() {
        true => Err("there is no case".to_string()),
        false => Ok(vectors),
    }
}

#[cfg(test)]
mod tests {
    use super::*;
    use crate::under_test::Port;

    const SMALL: &str = "case small\n\
                         in 000000000000000000000000000000000000000000000000000000\n\
                         out\ncan 0 0 0 0\nend\n";
    /// The book of the rules "1" and "not 1".
    const STOP: &str = "case a stop\ncheck\n\
                        book 010200\
                        01000000000000000000000000000000\
                        00000000000000000100000000000000\n\
                        allowance 0\ntables 1 1 64 65 66\norder 0 0 0\nout\n\
                        stopped 10 0 0 0\nend\n";
    /// A book without options and rules, and two orders: the second names an option above n.
    const TWO: &str = "case two\nmorning\nbook 000000\nallowance 0\ntables 0 1 128 129 128\n\
                       order 0 0 0\norder 0 0 1\nout\n\
                       can 0 0 0 0\nrefused 12 0 0 0\nend\n";

    /// The book of the rule "not 1", and option 1 open: fitted it needs a branching.
    const OPEN: &str = "case open\nopen\n\
                        book 010100\
                        00000000000000000100000000000000\n\
                        allowance 0\ntables 1 1 64 65 66\norder 0 0 0\nundecided 1\nout\n\
                        stopped 1\nstopped 10 0 0 0\nend\n";

    /// The book of the rules "1" and "not 1", and two sites that need a branching each and share one.
    const TWO_SITES: &str = "case two sites\nsites\n\
                             book 010200\
                             01000000000000000000000000000000\
                             00000000000000000100000000000000\n\
                             allowance 1\n\
                             site 0 0 0 1 1 64 64 64\nsite 0 0 0 1 1 64 64 64\nout\n\
                             cannot 0 1 1 1\nd 0 0\nr 0 0 1\nstopped 10 0 0 0\nend\n";
    const SITE: &str = "site 0 0 0 1 1 64 64 64\n";
    const TWO_ANSWERS: &str = "cannot 0 1 1 1\nd 0 0\nr 0 0 1\nstopped 10 0 0 0\n";

    /// A book without options and rules, and a site whose order names an option.
    const TERMINAL: &str = "case terminal\nterminal\nbook 000000\nnumbers 8 4 3\n\
                            site 1 0 0 0 0 64 64 64\nout\n\
                            refused 7 0 0 0\nleft 8\nsites 2\nend\n";

    /// The book of the rules "1" and "not 1", and its page with an allowance of one branching.
    const PAGE: &str = "case page\nfiled\n\
                        book 010200\
                        01000000000000000000000000000000\
                        00000000000000000100000000000000\n\
                        allowance 1\norder 0 0 0\nout\n\
                        cannot             0         1         1\n\
                        \x20  1 none                               \nend\n";

    /// A draft is kept and another wish set; the option of the last call is above n.
    const DESK: &str = "case desk\ndesk 2\nset 1 fitted\nkeep 3\nset 2 out\nset 3 out\nout\n\
                        0\n0\n0\n0\n7\norder 1 2\ndraft 3 1 0\nend\n";

    /// Option 1 of the second book is option 2 of the first, and its option 2 becomes 3: the rule "2 or not 1".
    const JOIN: &str = "case join\njoin\nfirst 020000\n\
                        second 020100\
                        02000000000000000100000000000000\n\
                        pairs 0201\nroom 19\nout\n\
                        book 030100\
                        04000000000000000200000000000000\nend\n";

    /// The rule "2": whatever the buyer says of option 1, the planner fits option 2.
    const TURNS: &str = "case turns\nturns\n\
                         book 020100\
                         02000000000000000000000000000000\n\
                         order 0 0 0\nout\nforced fitted fitted\nend\n";

    /// The rule "2": option 2 costs 4 cents, and with a rebate of 550 thousandths 1.8.
    const CHEAPEST: &str = "case cheapest\ncheapest\n\
                            book 020100\
                            02000000000000000000000000000000\n\
                            order 0 0 0\nprices 3 4\nrebate 550\nout\ncan 4 2 2\nend\n";

    fn through_the_port(text: &str) -> Result<(Score, String), String> {
        run(&mut [Box::new(Port)], text)
    }

    fn error(text: &str) -> String {
        through_the_port(text).unwrap_err()
    }

    #[test]
    fn cases_that_agree_are_counted() {
        let (score, told) = through_the_port(&format!("{SMALL}{STOP}")).unwrap();
        assert_eq!(score, Score { agree: 2, ..Score::default() });
        assert_eq!(told, "");
    }

    #[test]
    fn every_case_that_differs_is_named() {
        let wrong = SMALL.replace("can 0", "can 1").replace("small", "wrong");
        let late = STOP.replace("stopped 10", "stopped 11").replace("a stop", "late");
        let (score, told) = through_the_port(&format!("{wrong}{SMALL}{late}")).unwrap();
        assert_eq!(score.agree, 1);
        assert_eq!(score.differ, ["wrong", "late"]);
        let due = "case wrong differs, port: line 1 is `can 0 0 0 0`, due is `can 1 0 0 0`\n\
                   case late differs, port: line 1 is `stopped 10 0 0 0`, due is `stopped 11 0 0 0`\n";
        assert_eq!(told, due);
    }

    #[test]
    fn a_standard_word_is_asked() {
        let standard = STOP.replace("order 0 0 0", "order 0 0 1");
        let above = STOP.replace("order 0 0 0", "order 0 0 2").replace("stopped 10", "refused 12");
        let (score, told) = through_the_port(&format!("{standard}{above}")).unwrap();
        assert_eq!((score.agree, told.as_str()), (2, ""));
    }

    #[test]
    fn the_answers_to_a_morning_stand_one_after_the_other() {
        let none = TWO.replace("order 0 0 0\norder 0 0 1\n", "");
        let none = none.replace("can 0 0 0 0\nrefused 12", "refused 13");
        let (score, told) = through_the_port(&format!("{TWO}{none}")).unwrap();
        assert_eq!((score.agree, told.as_str()), (2, ""));
        let turned = TWO.replace("can 0 0 0 0\nrefused 12 0 0 0", "refused 12 0 0 0\ncan 0 0 0 0");
        let short = TWO.replace("case two", "case short").replace("can 0 0 0 0\n", "");
        let (score, told) = through_the_port(&format!("{turned}{short}")).unwrap();
        assert_eq!(score.differ, ["two", "short"]);
        let due = "port: line 1 is `can 0 0 0 0`, due is `refused 12 0 0 0`\n";
        assert_eq!(told, format!("case two differs, {due}case short differs, {due}"));
    }

    #[test]
    fn what_was_tried_stands_before_the_last_setting() {
        let (score, told) = through_the_port(OPEN).unwrap();
        assert_eq!((score.agree, told.as_str()), (1, ""));
        let wanted = OPEN.replace("order 0 0 0", "order 1 0 0");
        let (_, told) = through_the_port(&wanted).unwrap();
        let due = "line 1 is `refused 20 0 0 0`, due is `stopped 1`";
        assert_eq!(told, format!("case open differs, port: {due}\n"));
    }

    #[test]
    fn the_answers_to_sites_stand_one_after_the_other() {
        let none = TWO_SITES.replace(SITE, "").replace("two sites", "no site");
        let none = none.replace(TWO_ANSWERS, "refused 21 0 0 0\n");
        let (score, told) = through_the_port(&format!("{TWO_SITES}{none}")).unwrap();
        assert_eq!((score.agree, told.as_str()), (2, ""));
        let more = TWO_SITES.replace("allowance 1", "allowance 2");
        let (_, told) = through_the_port(&more).unwrap();
        let due = "line 4 is `cannot 0 1 1 1`, due is `stopped 10 0 0 0`";
        assert_eq!(told, format!("case two sites differs, port: {due}\n"));
    }

    #[test]
    fn a_terminal_stands_after_its_sites_outcome() {
        let (score, told) = through_the_port(TERMINAL).unwrap();
        assert_eq!((score.agree, told.as_str()), (1, ""));
        let (_, told) = through_the_port(&TERMINAL.replace("left 8", "left 7")).unwrap();
        let due = "line 2 is `left 8`, due is `left 7`";
        assert_eq!(told, format!("case terminal differs, port: {due}\n"));
    }

    #[test]
    fn a_page_is_held_to_its_last_blank() {
        let none = "case none\npage 00\nout\nrefused            1         0         0\nend\n";
        let (score, told) = through_the_port(&format!("{PAGE}{none}")).unwrap();
        assert_eq!((score.agree, told.as_str()), (2, ""));
        let short = PAGE.replace("none                               \n", "none\n");
        let (_, told) = through_the_port(&short).unwrap();
        let due = "line 2 is `   1 none                               `, due is `   1 none`";
        assert_eq!(told, format!("case page differs, port: {due}\n"));
    }

    #[test]
    fn a_desks_numbers_stand_before_its_order_and_its_drafts() {
        let (score, told) = through_the_port(DESK).unwrap();
        assert_eq!((score.agree, told.as_str()), (1, ""));
        let (_, told) = through_the_port(&DESK.replace("draft 3 1 0", "draft 3 1 2")).unwrap();
        let due = "line 7 is `draft 3 1 0`, due is `draft 3 1 2`";
        assert_eq!(told, format!("case desk differs, port: {due}\n"));
    }

    #[test]
    fn a_joint_book_stands_on_one_line_and_so_does_its_refusal() {
        let short = JOIN.replace("room 19", "room 18");
        let (score, told) = through_the_port(&format!("{JOIN}{short}")).unwrap();
        assert_eq!((score.agree, score.differ), (1, vec!["join".to_string()]));
        let due = "case join differs, port: line 1 is `refused 23`, due is `book 03";
        assert!(told.starts_with(due), "{told}");
    }

    #[test]
    fn a_verdict_on_turns_and_the_two_answers_stand_on_one_line() {
        let out = TURNS.replace("forced fitted fitted", "forced out fitted");
        let (score, told) = through_the_port(&format!("{TURNS}{out}")).unwrap();
        assert_eq!((score.agree, score.differ), (1, vec!["turns".to_string()]));
        let due = "line 1 is `forced fitted fitted`, due is `forced out fitted`";
        assert_eq!(told, format!("case turns differs, port: {due}\n"));
    }

    #[test]
    fn total_amount_due_and_choice_stand_on_one_line() {
        let none = CHEAPEST.replace("prices 3 4", "prices 3");
        let (score, told) = through_the_port(&format!("{CHEAPEST}{none}")).unwrap();
        assert_eq!((score.agree, score.differ), (1, vec!["cheapest".to_string()]));
        let due = "line 1 is `refused 18`, due is `can 4 2 2`";
        assert_eq!(told, format!("case cheapest differs, port: {due}\n"));
    }

    #[test]
    fn a_case_that_a_checker_cannot_be_asked_is_named() {
        struct None;
        impl UnderTest for None {
            fn name(&self) -> String {
                "other".to_string()
            }
            fn takes(&self, _: &Question) -> bool {
                false
            }
            fn printed(&mut self, _: &Question) -> Result<String, String> {
                Err("it was asked".to_string())
            }
        }
        let both = format!("{SMALL}{TWO}");
        let (score, told) = run(&mut [Box::new(None), Box::new(Port)], &both).unwrap();
        assert_eq!(score.agree, 2);
        assert_eq!(told, "not asked of the other (2): small, two\n");
    }

    #[test]
    fn the_stored_cases_agree_through_the_port() {
        let folder = concat!(env!("CARGO_MANIFEST_DIR"), "/../../tests/vectors");
        let files = [
            ("p01.txt", 419),
            ("check.txt", 250),
            ("reading.txt", 420),
            ("morning.txt", 250),
            ("open.txt", 250),
            ("sites.txt", 250),
            ("page.txt", 250),
            ("page_lines.txt", 80),
            ("desk.txt", 250),
            ("desk_more.txt", 50),
            ("join.txt", 250),
            ("join_more.txt", 90),
            ("turns.txt", 250),
            ("turns_more.txt", 120),
            ("cheapest.txt", 250),
            ("cheapest_more.txt", 164),
        ];
        for (file, cases) in files {
            let text = std::fs::read_to_string(format!("{folder}/{file}")).unwrap();
            let (score, told) = through_the_port(&text).unwrap();
            assert_eq!(score, Score { agree: cases, ..Score::default() }, "{file}: {told}");
        }
    }

    #[test]
    fn a_broken_file_is_an_error() {
        assert_eq!(error(""), "there is no case");
        assert_eq!(error("cases\n"), "`case` is due, not `cases`");
        assert_eq!(error("case a\nin 00\n"), "case a has no `out`");
        assert_eq!(error("case a\nin 00\nout\n"), "case a has no `end`");
        assert_eq!(error("case a\nout\nend\n"), "case a: there is no question");
        assert!(error("case a\nin 0\nout\nend\n").starts_with("case a: an odd number"));
        assert_eq!(error("case a\nguess\nout\nend\n"), "case a: `guess` is no question");
        let numbers = error(&STOP.replace("tables 1 ", "tables "));
        assert_eq!(numbers, "case a stop: 5 numbers are due, not `1 64 65 66`");
        let lines = error(&STOP.replace("allowance 0\n", ""));
        let due = "case a stop: the lines book, allowance, tables, order are due, not 3 lines";
        assert_eq!(lines, due);
        let key = error(&STOP.replace("book", "books"));
        assert_eq!(key, "case a stop: `book` is due, not `books`");
    }
}
