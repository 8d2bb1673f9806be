//! A page held to the printed outcome of the same check by reading it back, character by character. No
//! other page is looked at.

use crate::fields::numbers;
use port::Rule;

/// The characters of a line, and its bytes with the line feed.
const LINE: usize = 40;
const BYTES: usize = LINE + 1;

/// The characters of a line before a rule's text: four of its number, and a blank.
const BEFORE_TEXT: usize = 5;
/// The characters that a rule's text may have.
pub const TEXT: usize = LINE - BEFORE_TEXT;

/// What a line shows of a derived rule.
#[derive(Debug, PartialEq, Eq)]
enum Shown {
    Entries(Rule),
    Count(u32),
}

/// The page says what the outcome does.
pub fn agrees(page: &str, outcome: &str) -> Result<(), String> {
    let (head, rules) = read_outcome(outcome)?;
    let lines = lines(page)?;
    let Some((first, others)) = lines.split_first() else { return Err("no line".to_string()) };
    if others.len() != rules.len() {
        return Err(format!("{} lines after the first for {} rules", others.len(), rules.len()));
    }
    if head[3] != rules.len().to_string() {
        return Err(format!("an outcome that counts {} rules has {}", head[3], rules.len()));
    }
    let fields = [
        first[..10].trim_end_matches(' '),
        first[10..20].trim_start_matches(' '),
        first[20..30].trim_start_matches(' '),
        first[30..].trim_start_matches(' '),
    ];
    if fields != head {
        return Err(format!("the first line `{first}` has {fields:?}, due is {head:?}"));
    }
    for (index, (line, rule)) in others.iter().zip(rules).enumerate() {
        is_line_of(line, index + 1, rule).map_err(|what| format!("line `{line}`: {what}"))?;
    }
    Ok(())
}

/// The first four words of the printed outcome, and its derived rules.
fn read_outcome(outcome: &str) -> Result<([&str; 4], Vec<Rule>), String> {
    let first = outcome.lines().next().unwrap_or_default();
    let words: Vec<&str> = first.split(' ').collect();
    let [word, number, branchings, derived, _] = words[..] else {
        return Err(format!("no outcome begins with `{first}`"));
    };
    let rule = |words: &str| {
        let [fitted, left_out] = numbers(words)?;
        Ok(Rule { fitted, left_out })
    };
    let rules = outcome.lines().filter_map(|line| line.strip_prefix("d ")).map(rule);
    Ok(([word, number, branchings, derived], rules.collect::<Result<_, String>>()?))
}

/// The lines of a page, each of 40 printed characters and a line feed.
fn lines(page: &str) -> Result<Vec<&str>, String> {
    let is_line = |bytes: &[u8]| match bytes.split_last() {
        Some((b'\n', line)) => {
            line.len() == LINE && line.iter().all(|byte| (b' '..=b'~').contains(byte))
        }
        _ => false,
    };
    match page.as_bytes().chunks(BYTES).position(|bytes| !is_line(bytes)) {
        Some(index) => Err(format!("line {index} has not 40 characters and a line feed")),
        None => Ok(page.lines().collect()),
    }
}

/// The line is that of this derived rule, with this number.
fn is_line_of(line: &str, number: usize, rule: Rule) -> Result<(), String> {
    let (before, text) = line.split_at(BEFORE_TEXT);
    let (field, blank) = before.split_at(BEFORE_TEXT - 1);
    if field.trim_start_matches(' ') != number.to_string() || blank != " " {
        return Err(format!("its number is due, {number}, and a blank"));
    }
    let due = match characters(rule) > TEXT {
        true => Shown::Count(entries(rule)),
        false => Shown::Entries(rule),
    };
    match read(text.trim_end_matches(' '))? {
        shown if shown == due => Ok(()),
        shown => Err(format!("it shows {shown:?}, due is {due:?}")),
    }
}

/// What a rule's text shows.
fn read(text: &str) -> Result<Shown, String> {
    if text == "none" {
        return Ok(Shown::Entries(Rule { fitted: 0, left_out: 0 }));
    }
    let count = text.strip_prefix('(').and_then(|text| text.strip_suffix(" entries)"));
    if let Some(count) = count {
        return Ok(Shown::Count(plain_number(count)?));
    }
    let (mut fitted, mut left_out, mut last) = (0, 0, 0);
    for entry in text.split(' ') {
        let (word, number) = match entry.strip_prefix('-') {
            Some(number) => (&mut left_out, number),
            None => (&mut fitted, entry),
        };
        let option = plain_number(number)?;
        if option <= last || option > 64 {
            return Err(format!("option {option} stands after {last}"));
        }
        *word |= 1 << (option - 1);
        last = option;
    }
    Ok(Shown::Entries(Rule { fitted, left_out }))
}

/// A number in digits alone, the first of which is not 0.
fn plain_number(text: &str) -> Result<u32, String> {
    let number = text.parse().ok().filter(|number: &u32| number.to_string() == text);
    number.ok_or(format!("`{text}` is no number"))
}

/// So many entries has a rule.
pub fn entries(rule: Rule) -> u32 {
    rule.fitted.count_ones() + rule.left_out.count_ones()
}

/// So many characters have a rule's entries, with a blank between each two.
pub fn characters(rule: Rule) -> usize {
    let two_digits = u64::MAX << 9;
    let minus = rule.left_out.count_ones();
    let second_digits =
        entries(Rule { fitted: rule.fitted & two_digits, left_out: rule.left_out & two_digits });
    let blanks = entries(rule).saturating_sub(1);
    (entries(rule) + second_digits + minus + blanks) as usize
}

#[cfg(test)]
mod tests {
    use super::*;

    const OUTCOME: &str = "cannot 0 12 4 1\nd 3 1024\nd 0 9223372036854775808\nd 65534 1\nd 0 0\n\
                           r 0 0 3\n";
    const PAGE: [&str; 5] = [
        "cannot             0        12         4\n",
        "   1 1 2 -11                            \n",
        "   2 -64                                \n",
        "   3 (16 entries)                       \n",
        "   4 none                               \n",
    ];

    /// What is told of the page with another line in the place of this one.
    fn with(index: usize, line: &str) -> Result<(), String> {
        let mut page = PAGE;
        let line = format!("{line}\n");
        page[index] = &line;
        agrees(&page.concat(), OUTCOME)
    }

    #[test]
    fn a_page_agrees_with_its_outcome() {
        assert_eq!(agrees(&PAGE.concat(), OUTCOME), Ok(()));
        assert_eq!(agrees("can                0         0         0\n", "can 0 0 0 2\n"), Ok(()));
        let stopped = "stopped           11         3         0\n";
        assert_eq!(agrees(stopped, "stopped 11 3 0 1\nr 0 0 1\n"), Ok(()));
    }

    #[test]
    fn each_field_of_the_first_line_has_its_place() {
        let wrong = [
            "can                0        12         4",
            "cannot             1        12         4",
            "cannot             0        13         4",
            "cannot             0         4        12",
            "cannot             0        12         5",
            "cannot    0         12        4         ",
            "    cannot         0        12         4",
            "cannot    0000000000        12         4",
            "cannot            0         12         4",
        ];
        for line in wrong {
            let told = with(0, line).unwrap_err();
            assert!(told.starts_with(&format!("the first line `{line}` has [")), "{told}");
        }
    }

    #[test]
    fn each_line_of_a_rule_is_read_back() {
        let wrong = [
            (1, "   1 1 2 11                             "),
            (1, "   1 -1 -2 11                           "),
            (1, "   1 -11 2 1                            "),
            (1, "   1 1 -11 2                            "),
            (1, "   1 1  2 -11                           "),
            (1, "   1  1 2 -11                           "),
            (1, "   1 1 2                                "),
            (1, "   1 1 2 -11 12                         "),
            (1, "   1 01 2 -11                           "),
            (1, "   1 +1 2 -11                           "),
            (1, "   1 (3 entries)                        "),
            (1, "   1 1,2,-11                            "),
            (1, "   1                                    "),
            (1, "   0 1 2 -11                            "),
            (1, "   7 1 2 -11                            "),
            (1, "0001 1 2 -11                            "),
            (1, "1    1 2 -11                            "),
            (1, "   11 2 -11                             "),
            (2, "   2 64                                 "),
            (2, "   2 -65                                "),
            (3, "   3 (15 entries)                       "),
            (3, "   3 (17 entries)                       "),
            (3, "   3 (16 entries                        "),
            (3, "   3 (16  entries)                      "),
            (3, "   3 -1 2 3 4 5 6 7 8 9 10 11 12 13 14  "),
            (4, "   4                                    "),
            (4, "   4 None                               "),
            (4, "   4 (0 entries)                        "),
        ];
        for (index, line) in wrong {
            let told = with(index, line).unwrap_err();
            assert!(told.starts_with(&format!("line `{line}`: ")), "{told}");
        }
    }

    #[test]
    fn a_line_has_forty_characters_and_a_line_feed() {
        let due = |index| Err(format!("line {index} has not 40 characters and a line feed"));
        assert_eq!(with(1, "   1 1 2 -11                           "), due(1));
        assert_eq!(with(1, "   1 1 2 -11                             "), due(1));
        assert_eq!(with(1, "   1 1 2 -11                           \t"), due(1));
        assert_eq!(with(2, "   2 -64                               \r"), due(2));
        let page = PAGE.concat();
        assert_eq!(agrees(page.trim_end(), OUTCOME), due(4));
        assert_eq!(agrees(&format!("{page}\n"), OUTCOME), due(5));
        assert_eq!(agrees("", OUTCOME), Err("no line".to_string()));
    }

    #[test]
    fn there_is_a_line_for_each_rule() {
        let told = agrees(&PAGE[..4].concat(), OUTCOME).unwrap_err();
        assert_eq!(told, "3 lines after the first for 4 rules");
        let told = agrees(&[&PAGE[..], &PAGE[4..]].concat().concat(), OUTCOME).unwrap_err();
        assert_eq!(told, "5 lines after the first for 4 rules");
    }

    #[test]
    fn a_text_of_35_characters_is_due_as_it_is_and_one_of_36_as_its_count() {
        let (fits, counted) = ("1 2 3 4 5 6 7 8 9 10 11 12 13 14 15", "(15 entries)");
        let of = |words: &str, text: &str| {
            let page = format!("can                0         0         1\n   1 {text:<35}\n");
            agrees(&page, &format!("can 0 0 1 0\nd {words}\n")).is_ok()
        };
        assert_eq!([of("32767 0", fits), of("32767 0", counted)], [true, false]);
        assert_eq!([of("32766 1", fits), of("32766 1", counted)], [false, true]);
    }

    #[test]
    fn characters_are_digits_signs_and_blanks() {
        let of = |fitted, left_out| characters(Rule { fitted, left_out });
        assert_eq!([of(0, 0), of(1, 0), of(0, 1), of(1 << 8, 0)], [0, 1, 2, 1]);
        assert_eq!([of(1 << 9, 0), of(0, 1 << 63), of(3, 1024)], [2, 3, 7]);
        assert_eq!([of(32767, 0), of(32766, 1), of(0, u64::MAX << 55)], [35, 36, 35]);
        assert_eq!(of(u64::MAX, 0), 64 + 55 + 63);
    }
}
