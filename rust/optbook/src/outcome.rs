//! The outcome of a check in words: how it ended, the counts, each derived rule as a rule, and each
//! record as its decisions and its struck options.

use crate::engine::{Answer, Checked, Kind, Record};
use crate::text::{rule_text, set_text};

/// How a check ends where no choice keeps every rule and wish.
pub const CANNOT: &str = "cannot be built: no choice of options keeps every rule and wish";

/// What each refusal and each stop says, by its number.
fn reason(number: u32) -> &'static str {
    match number {
        1 => "the book has fewer than 3 bytes",
        2 => "the book has more than 64 options",
        3 => "the book has more than 1,024 rules",
        4 => "the book's length is not 3 + 16 for each rule",
        5 => "a rule names an option above the book's last",
        6 => "a rule has one option in both words",
        7 => "a wanted or an unwanted option is above the book's last",
        8 => "an option is both wanted and unwanted",
        9 => "the places for derived rules are more than 2,048",
        10 => "another branching is due and the allowance is spent",
        11 => "a new derived rule is due and all its places are full",
        12 => "a standard option is above the book's last",
        13 => "the number of orders is not 1 to 16",
        14 => "the draft's number is not 1 to 16",
        15 => "that draft was never kept",
        16 => "more than 12 options are free",
        17 => "more than 20 options are free",
        18 => {
            "a price is missing or above 10,000,000 cents, or the rebate is above 1,000 thousandths"
        }
        19 => "more than 10 options are open, or one is above the book's last",
        20 => "an open option is also wanted or unwanted",
        21 => "the number of sites is not 1 to 8",
        22 => "a pair is incomplete, or names an option outside its book or one already paired",
        23 => "the joint book has more than 64 options or 1,024 rules, or more bytes than are lent",
        _ => "no number of the table",
    }
}

/// The outcome in words, over options with these names.
pub fn in_words(checked: &Checked, names: &[String]) -> String {
    let mut text = format!("{}\n{}\n", ending(checked.answer), counts(checked.answer));
    for &rule in &checked.derived {
        text += &format!("derived rule: {}\n", rule_text(rule, names));
    }
    for &record in &checked.records {
        text += &format!("record: {}\n", record_text(record, names));
    }
    text
}

/// How a check ended.
pub fn ending(answer: Answer) -> String {
    let (number, reason) = (answer.number, reason(answer.number));
    match answer.kind {
        Kind::Can => "can be built: some choice of options keeps every rule and wish".to_string(),
        Kind::Cannot => CANNOT.to_string(),
        Kind::Refused => refusal(number),
        Kind::Stopped => format!("stopped without a verdict, number {number}: {reason}"),
    }
}

/// A refusal, by its number.
pub fn refusal(number: u32) -> String {
    format!("refused, number {number}: {}", reason(number))
}

/// A refusal of too many free options, with these.
pub fn refusal_with_free(number: u32, free: u64, names: &[String]) -> String {
    let (refusal, count) = (refusal(number), free.count_ones());
    format!("{refusal}: {count}\nfree: {}", set_text(free, names))
}

fn counts(answer: Answer) -> String {
    let Answer { branchings, derived, records, .. } = answer;
    format!("branchings {branchings}, derived rules {derived}, records {records}")
}

fn record_text(record: Record, names: &[String]) -> String {
    let Record { decided, fitted, struck } = record;
    let [fitted, left_out, struck] =
        [decided & fitted, decided & !fitted, struck].map(|set| set_text(set, names));
    format!("fitted {fitted}; left out {left_out}; struck {struck}")
}

#[cfg(test)]
mod tests {
    use super::*;
    use crate::text::numbered_names;
    use crate::Rule;

    fn answer(kind: Kind, number: u32, derived: usize, records: usize) -> Answer {
        Answer { kind, number, branchings: 2, derived, records }
    }

    #[test]
    fn derived_rules_and_records_are_told_with_names() {
        let names = ["a", "b", "c"].map(str::to_string);
        let derived = vec![Rule { fitted: 1, left_out: 2 }, Rule::default()];
        let records = vec![
            Record { decided: 0, fitted: 0, struck: 7 },
            Record { decided: 3, fitted: 1, struck: 4 },
        ];
        let checked = Checked { answer: answer(Kind::Cannot, 0, 2, 2), derived, records };
        let due = "cannot be built: no choice of options keeps every rule and wish\n\
                   branchings 2, derived rules 2, records 2\n\
                   derived rule: a | !b\n\
                   derived rule: false\n\
                   record: fitted (none); left out (none); struck a b c\n\
                   record: fitted a; left out b; struck c\n";
        assert_eq!(in_words(&checked, &names), due);
    }

    #[test]
    fn each_ending_is_told() {
        let told = |kind, number| ending(answer(kind, number, 0, 0));
        assert!(told(Kind::Can, 0).starts_with("can be built: "));
        assert!(told(Kind::Cannot, 0).starts_with("cannot be built: "));
        assert_eq!(told(Kind::Refused, 1), "refused, number 1: the book has fewer than 3 bytes");
        let nine = "refused, number 9: the places for derived rules are more than 2,048";
        assert_eq!(told(Kind::Refused, 9), nine);
        let ten = "stopped without a verdict, number 10: another branching is due and the \
                   allowance is spent";
        assert_eq!(told(Kind::Stopped, 10), ten);
        assert!(told(Kind::Stopped, 11).ends_with("all its places are full"));
        let twelve = "refused, number 12: a standard option is above the book's last";
        assert_eq!(told(Kind::Refused, 12), twelve);
        let thirteen = "refused, number 13: the number of orders is not 1 to 16";
        assert_eq!(told(Kind::Refused, 13), thirteen);
        let fourteen = "refused, number 14: the draft's number is not 1 to 16";
        assert_eq!(refusal(14), fourteen);
        assert_eq!(refusal(15), "refused, number 15: that draft was never kept");
        assert_eq!(refusal(16), "refused, number 16: more than 12 options are free");
        assert_eq!(refusal(17), "refused, number 17: more than 20 options are free");
        let eighteen = "refused, number 18: a price is missing or above 10,000,000 cents, or the \
                        rebate is above 1,000 thousandths";
        assert_eq!(refusal(18), eighteen);
        let nineteen =
            "refused, number 19: more than 10 options are open, or one is above the book's last";
        assert_eq!(told(Kind::Refused, 19), nineteen);
        let twenty = "refused, number 20: an open option is also wanted or unwanted";
        assert_eq!(told(Kind::Refused, 20), twenty);
        let twenty_one = "refused, number 21: the number of sites is not 1 to 8";
        assert_eq!(told(Kind::Refused, 21), twenty_one);
        let twenty_two = "refused, number 22: a pair is incomplete, or names an option outside \
                          its book or one already paired";
        assert_eq!(refusal(22), twenty_two);
        let twenty_three = "refused, number 23: the joint book has more than 64 options or 1,024 \
                            rules, or more bytes than are lent";
        assert_eq!(refusal(23), twenty_three);
        assert_eq!(told(Kind::Refused, 63), "refused, number 63: no number of the table");
    }

    #[test]
    fn too_many_free_options_are_told_by_names() {
        let due = "refused, number 17: more than 20 options are free: 2\nfree: x1 x3";
        assert_eq!(refusal_with_free(17, 5, &numbered_names(3)), due);
    }

    #[test]
    fn nothing_derived_is_two_lines() {
        let checked =
            Checked { answer: answer(Kind::Can, 0, 0, 0), derived: vec![], records: vec![] };
        assert_eq!(in_words(&checked, &numbered_names(2)).lines().count(), 2);
    }
}
