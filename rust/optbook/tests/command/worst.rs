//! The verb `worst`, and what a check of its books takes, through the proved library.

use crate::run::{optbook, Ended};

/// The worst book of so many options.
fn worst(options: &str) -> Ended {
    optbook(&["worst", options], b"")
}

#[test]
fn a_book_is_printed_rule_by_rule() {
    let due = "\
# all 4 rules that name all 2 options: no choice keeps every one of them
# with an empty order a check takes 3 branchings and derives 3 rules
options: x1 x2
!x1 | !x2
x1 | !x2
!x1 | x2
x1 | x2
";
    let ended = worst("2");
    assert_eq!((ended.text(), ended.said.as_str(), ended.status), (due, "", 0));
    let one = worst("1");
    let due = "\
# all 2 rules that name the one option: no choice keeps every one of them
# with an empty order a check takes 1 branching and derives 1 rule
options: x1
!x1
x1
";
    assert_eq!((one.text(), one.status), (due, 0));
}

#[test]
fn the_largest_has_as_many_rules_as_a_book_may() {
    let ten = worst("10");
    assert_eq!(ten.text().lines().filter(|line| line.contains(" | ")).count(), 1024);
    assert_eq!(optbook(&["bytes", "-"], &ten.printed).printed.len(), 24 + 3 + 16 * 1024);
}

#[test]
fn other_numbers_of_options_are_a_bad_command_line() {
    for word in ["0", "11", "64", "3.0", "three", "", "18446744073709551617"] {
        let ended = worst(word);
        assert_eq!((ended.text(), ended.status), ("", 64), "{word}");
        let expected = "expected a number of options from 1 to 10";
        assert!(ended.said.contains(expected), "{}", ended.said);
    }
    for words in [&["worst"][..], &["worst", "-1"], &["worst", "2", "3"]] {
        assert_eq!(optbook(words, b"").status, 64, "{words:?}");
    }
}

#[cfg(feature = "proved")]
mod proved {
    use super::*;

    /// The second line of a check with these words: the counts.
    fn counts(book: &[u8], words: &[&str]) -> (String, i32) {
        let ended = optbook(&[&["check", "-"], words].concat(), book);
        (ended.text().lines().nth(1).unwrap_or_default().to_string(), ended.status)
    }

    /// The book with its rules the other way round.
    fn backwards(ended: &Ended) -> Vec<u8> {
        let (head, rules): (Vec<&str>, Vec<&str>) =
            ended.text().lines().partition(|line| line.starts_with(['#', 'o']));
        let lines = head.into_iter().chain(rules.into_iter().rev());
        lines.flat_map(|line| [line, "\n"]).collect::<String>().into_bytes()
    }

    #[test]
    fn a_check_takes_what_is_printed() {
        for options in 1..=10 {
            let ended = worst(&options.to_string());
            let most = (1 << options) - 1;
            let due = format!("branchings {most}, derived rules {most}, records 1");
            for book in [ended.printed.clone(), backwards(&ended)] {
                assert_eq!(counts(&book, &[]), (due.clone(), 1), "{options} options");
                let just = [most.to_string(), most.to_string()];
                let words = ["--allowance", just[0].as_str(), "--places", just[1].as_str()];
                assert_eq!(counts(&book, &words), (due.clone(), 1), "{options} options");
            }
        }
    }

    #[test]
    fn one_fewer_of_either_stops() {
        for options in 1..=10 {
            let book = worst(&options.to_string()).printed;
            let fewer = ((1 << options) - 2).to_string();
            for flag in ["--allowance", "--places"] {
                assert_eq!(counts(&book, &[flag, &fewer]).1, 3, "{options} options, {flag}");
            }
        }
    }
}
