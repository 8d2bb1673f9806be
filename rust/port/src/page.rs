//! The page for the file: an outcome as lines of 40 characters and a line feed, one for the answer and
//! one for each derived rule.

use crate::outcome::Outcome;
use crate::words::Rule;

/// The characters that a rule's text may have.
const WIDTH: usize = 35;

/// The page of an outcome.
pub fn page(outcome: &Outcome) -> String {
    let Outcome { ending, branchings, derived, .. } = outcome;
    let (word, number) = ending.named();
    let mut page = format!("{word:<10}{number:>10}{branchings:>10}{:>10}\n", derived.len());
    for (index, &rule) in derived.iter().enumerate() {
        let (number, text) = (index + 1, text(rule));
        page += &format!("{number:>4} {text:<WIDTH$}\n");
    }
    page
}

/// A rule's text: its entries where they fit, and else how many there are.
fn text(rule: Rule) -> String {
    let entries = entries(rule);
    let text = entries.join(" ");
    match entries.len() {
        0 => "none".to_string(),
        _ if text.len() <= WIDTH => text,
        count => format!("({count} entries)"),
    }
}

/// The numbers of a rule's options, ascending, with a minus before the left-out ones.
fn entries(rule: Rule) -> Vec<String> {
    let mut entries = Vec::new();
    for option in 1..=64 {
        let word = 1 << (option - 1);
        if rule.fitted & word != 0 {
            entries.push(format!("{option}"));
        }
        if rule.left_out & word != 0 {
            entries.push(format!("-{option}"));
        }
    }
    entries
}

#[cfg(test)]
mod tests {
    use super::*;
    use crate::outcome::{Ending, CAN, CANNOT};

    /// The set of these options.
    fn set(options: &[u32]) -> u64 {
        options.iter().map(|option| 1 << (option - 1)).sum()
    }

    fn rule(fitted: &[u32], left_out: &[u32]) -> Rule {
        Rule { fitted: set(fitted), left_out: set(left_out) }
    }

    fn of(ending: Ending, branchings: u32, derived: Vec<Rule>) -> String {
        page(&Outcome { ending, branchings, derived, records: Vec::new() })
    }

    /// The options from the first to the last.
    fn from_to(first: u32, last: u32) -> Vec<u32> {
        (first..=last).collect()
    }

    #[test]
    fn a_verdict_with_its_rules() {
        let rules = vec![rule(&[1], &[]), rule(&[], &[1]), rule(&[], &[])];
        let due = [
            "cannot             0         3         3\n",
            "   1 1                                  \n",
            "   2 -1                                 \n",
            "   3 none                               \n",
        ];
        assert_eq!(of(CANNOT, 3, rules), due.concat());
        assert_eq!(of(CAN, 0, vec![]), "can                0         0         0\n");
    }

    #[test]
    fn a_refusal_has_one_line() {
        let refused = page(&Outcome::refused(7));
        assert_eq!(refused, "refused            7         0         0\n");
        assert_eq!(page(&Outcome::refused(12)), "refused           12         0         0\n");
    }

    #[test]
    fn a_stop_has_what_was_derived_before_it() {
        let ten = of(Ending::Stopped(10), 2, vec![rule(&[1], &[])]);
        let due = [
            "stopped           10         2         1\n",
            "   1 1                                  \n",
        ];
        assert_eq!(ten, due.concat());
        let eleven = of(Ending::Stopped(11), 40, vec![]);
        assert_eq!(eleven, "stopped           11        40         0\n");
    }

    #[test]
    fn options_ascend_and_those_left_out_have_a_minus() {
        assert_eq!(text(rule(&[9], &[11])), "9 -11");
        assert_eq!(text(rule(&[11], &[9])), "-9 11");
        assert_eq!(text(rule(&[2, 30, 64], &[1, 10, 63])), "-1 2 -10 30 -63 64");
        assert_eq!(text(rule(&[], &[64])), "-64");
    }

    /// 1 to 9 take 9 characters, 10 to 15 take 12, and the blanks between them 14.
    #[test]
    fn thirty_five_characters_fit_and_thirty_six_are_counted() {
        let fits = text(rule(&from_to(1, 15), &[]));
        assert_eq!(fits, "1 2 3 4 5 6 7 8 9 10 11 12 13 14 15");
        assert_eq!(fits.len(), 35);
        assert_eq!(text(rule(&from_to(2, 15), &[1])), "(15 entries)");
        assert_eq!(text(rule(&from_to(1, 16), &[])), "(16 entries)");
        assert_eq!(text(rule(&from_to(2, 15), &[])).len(), 33);
    }

    /// Nine entries have at most three characters each, and so they always fit.
    #[test]
    fn nine_entries_fit_and_ten_may_not() {
        let fits = text(rule(&[], &from_to(56, 64)));
        assert_eq!(fits, "-56 -57 -58 -59 -60 -61 -62 -63 -64");
        assert_eq!(fits.len(), 35);
        assert_eq!(text(rule(&[], &from_to(55, 64))), "(10 entries)");
        assert_eq!(text(rule(&from_to(2, 32), &from_to(33, 64))), "(63 entries)");
    }

    #[test]
    fn a_rule_has_its_number_in_the_derived_list() {
        let page = of(CANNOT, 12, vec![rule(&[5], &[]); 2048]);
        assert_eq!(page.len(), 41 * 2049);
        let lines: Vec<&str> = page.lines().collect();
        assert!(lines.iter().all(|line| line.len() == 40));
        for (number, start) in
            [(1, "   1 5 "), (9, "   9 5 "), (10, "  10 5 "), (100, " 100 5 "), (2048, "2048 5 ")]
        {
            assert!(lines[number].starts_with(start), "{}", lines[number]);
        }
    }

    #[test]
    fn each_count_is_set_right_whatever_its_digits() {
        let page = of(Ending::Stopped(11), 1_000_000, vec![rule(&[], &[]); 2048]);
        assert!(page.starts_with("stopped           11   1000000      2048\n"));
        let most = of(CAN, u32::MAX, vec![]);
        assert_eq!(most, "can                04294967295         0\n");
    }
}
