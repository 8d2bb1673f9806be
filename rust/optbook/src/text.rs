//! Writing the readable form: rules, sets and whole books with the options' names.

use crate::sheet::Demand;
use crate::{option, Book, Order, Rule};

/// The word for the empty rule.
pub const EMPTY_RULE: &str = "false";

/// The most characters of a line that has a part in where comments stand.
const COLUMN: usize = 60;

/// The names x1 to xn.
pub fn numbered_names(options: usize) -> Vec<String> {
    (1..=options).map(|number| format!("x{number}")).collect()
}

/// The text of a book and an order.
pub fn write(names: &[String], book: &Book, order: Order) -> String {
    let mut text = format!("options: {}\n", names.join(" "));
    for &rule in &book.rules {
        text += &format!("{}\n", rule_text(rule, names));
    }
    let sets = [("standard", order.standard), ("want", order.wanted), ("without", order.unwanted)];
    for (word, set) in sets {
        if set != 0 {
            text += &format!("{word}: {}\n", set_text(set, names));
        }
    }
    text
}

/// A rule's entries, lowest option first.
pub fn rule_text(rule: Rule, names: &[String]) -> String {
    let mut entries = Vec::new();
    for (index, name) in names.iter().enumerate() {
        if rule.fitted & option(index) != 0 {
            entries.push(name.clone());
        }
        if rule.left_out & option(index) != 0 {
            entries.push(format!("!{name}"));
        }
    }
    match entries.is_empty() {
        true => EMPTY_RULE.to_string(),
        false => entries.join(" | "),
    }
}

/// A demand as a line of its own.
pub fn demand_text(demand: Demand, names: &[String]) -> String {
    match demand {
        Demand::Rule(rule) => rule_text(rule, names),
        Demand::Standard(option) => format!("standard: {}", set_text(option, names)),
        Demand::Want(option) => format!("want: {}", set_text(option, names)),
        Demand::Without(option) => format!("without: {}", set_text(option, names)),
    }
}

/// Lines with a comment after each. The comments stand below one another, but for those after long lines.
pub fn commented(lines: &[(String, String)]) -> String {
    let widths = lines.iter().map(|(line, _)| line.len());
    let width = widths.filter(|&width| width <= COLUMN).max().unwrap_or(0);
    lines.iter().map(|(line, comment)| format!("{line:width$}  # {comment}\n")).collect()
}

/// The names of a set's options, lowest first, as a text.
pub fn set_text(set: u64, names: &[String]) -> String {
    match set_names(set, names) {
        members if members.is_empty() => "(none)".to_string(),
        members => members.join(" "),
    }
}

/// The names of a set's options, lowest first.
pub fn set_names(set: u64, names: &[String]) -> Vec<&str> {
    let members = names.iter().enumerate().filter(|(index, _)| set & option(*index) != 0);
    members.map(|(_, name)| name.as_str()).collect()
}

#[cfg(test)]
mod tests {
    use super::*;
    use crate::sheet::Sheet;

    #[test]
    fn what_is_written_reads_back() {
        let names = ["a", "b", "c"].map(str::to_string);
        let rule = |fitted, left_out| Rule { fitted, left_out };
        let book = Book { options: 3, rules: vec![rule(1, 2), rule(0, 0), rule(0, 4)] };
        let order = Order { wanted: 5, unwanted: 2, standard: 6 };
        let text = write(&names, &book, order);
        let due = "options: a b c\na | !b\nfalse\n!c\nstandard: b c\nwant: a c\nwithout: b\n";
        assert_eq!(text, due);
        let sheet = Sheet::of("text", &text).unwrap();
        assert_eq!(
            (sheet.names.as_slice(), sheet.book(), sheet.order()),
            (&names[..], book, order)
        );
    }

    #[test]
    fn a_book_without_options_reads_back() {
        let text = write(&[], &Book::default(), Order::default());
        let sheet = Sheet::of("text", &text).unwrap();
        assert_eq!((sheet.book(), sheet.order()), (Book::default(), Order::default()));
    }

    #[test]
    fn sets_and_names() {
        assert_eq!(numbered_names(2), ["x1", "x2"]);
        assert_eq!(set_text(2, &numbered_names(2)), "x2");
        assert_eq!(set_text(0, &numbered_names(2)), "(none)");
        assert_eq!(set_names(5, &numbered_names(3)), ["x1", "x3"]);
    }

    #[test]
    fn comments_stand_below_one_another_but_for_those_after_long_lines() {
        let line = |length| ("x".repeat(length), "here".to_string());
        let columns = |lengths: &[usize]| {
            let lines: Vec<_> = lengths.iter().map(|&length| line(length)).collect();
            let text = commented(&lines);
            assert!(text.lines().all(|line| line.ends_with("  # here")));
            text.lines().map(|line| line.find('#').unwrap()).collect::<Vec<_>>()
        };
        assert_eq!(columns(&[]), []);
        assert_eq!(columns(&[1, 7, 3]), [9, 9, 9]);
        assert_eq!(columns(&[1, 60, 61, 99]), [62, 62, 63, 101]);
        assert_eq!(columns(&[70, 8, 80]), [72, 10, 82]);
    }
}
