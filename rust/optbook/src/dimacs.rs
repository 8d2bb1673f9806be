//! A book in DIMACS CNF, the form that the field's solvers read: option k is variable k, a rule is a
//! clause, and a wish of the completed order is a clause of one literal.
//!
//! Read are files of at most 64 variables and 1,024 clauses. A clause may run over several lines, a
//! literal may repeat, and `%` ends the file, as in old collections. A clause with a variable and its
//! negation is always kept; a book has no such rules, so it is left out and told.

use crate::mistake::{Mistake, Place};
use crate::{option, Book, Order, Rule, OPTIONS, RULES};

/// A book that was read, and the lines of the clauses that are always kept.
#[derive(Clone, Debug, Default, PartialEq, Eq)]
pub struct Clauses {
    pub book: Book,
    pub always_kept: Vec<usize>,
}

/// Book and order in the DIMACS form: the rules, then a clause for each wish of the completed order,
/// lowest option first.
pub fn write(book: &Book, order: Order) -> String {
    let order = order.completed();
    let wish = |option| match (order.wanted & option != 0, order.unwanted & option != 0) {
        (true, _) => Some(Rule { fitted: option, left_out: 0 }),
        (_, true) => Some(Rule { fitted: 0, left_out: option }),
        _ => None,
    };
    let wishes = (0..book.options).map(option).filter_map(wish);
    let clauses: Vec<String> =
        book.rules.iter().copied().chain(wishes).map(|rule| clause(book.options, rule)).collect();
    format!("p cnf {} {}\n{}", book.options, clauses.len(), clauses.concat())
}

fn clause(options: usize, rule: Rule) -> String {
    let mut line = String::new();
    for index in 0..options {
        let number = index + 1;
        if rule.fitted & option(index) != 0 {
            line += &format!("{number} ");
        }
        if rule.left_out & option(index) != 0 {
            line += &format!("-{number} ");
        }
    }
    line + "0\n"
}

/// The book of a DIMACS file, or its first mistake.
pub fn read(file: &str, text: &str) -> Result<Clauses, Mistake> {
    let mut reader = Reader::default();
    let mut last = 1;
    for (index, line) in text.lines().enumerate() {
        last = index + 1;
        let line = line.trim();
        if line.starts_with('%') {
            break;
        }
        reader.read_line(last, line).map_err(|what| mistake(file, last, what))?;
    }
    reader.finish().map_err(|what| mistake(file, last, what))
}

fn mistake(file: &str, line: usize, what: String) -> Mistake {
    Mistake { place: Place { file: file.to_string(), line }, what }
}

/// What was read so far: the head's numbers, the whole clauses, and the one that is begun.
#[derive(Default)]
struct Reader {
    head: Option<(usize, usize)>,
    clauses: Clauses,
    begun: Option<Rule>,
}

impl Reader {
    fn read_line(&mut self, number: usize, line: &str) -> Result<(), String> {
        if line.is_empty() || line.starts_with('c') {
            return Ok(());
        }
        if line.starts_with('p') {
            return self.read_head(line);
        }
        let expected = "expected a line `p cnf VARIABLES CLAUSES` before the clauses";
        let (variables, clauses) = self.head.ok_or(expected)?;
        for word in line.split_whitespace() {
            self.read_literal(number, word, variables, clauses)?;
        }
        Ok(())
    }

    fn read_head(&mut self, line: &str) -> Result<(), String> {
        if self.head.is_some() {
            return Err("a second `p` line: expected one".to_string());
        }
        let words: Vec<&str> = line.split_whitespace().collect();
        let numbers = match words.as_slice() {
            ["p", "cnf", variables, clauses] => variables.parse().ok().zip(clauses.parse().ok()),
            _ => None,
        };
        let Some((variables, clauses)) = numbers else {
            return Err(format!("`{line}` is no head: expected `p cnf VARIABLES CLAUSES`"));
        };
        if variables > OPTIONS {
            return Err(format!("{variables} variables: expected at most {OPTIONS}"));
        }
        if clauses > RULES {
            return Err(format!("{clauses} clauses: expected at most {RULES}"));
        }
        self.head = Some((variables, clauses));
        self.clauses.book.options = variables;
        Ok(())
    }

    fn read_literal(
        &mut self,
        line: usize,
        word: &str,
        variables: usize,
        clauses: usize,
    ) -> Result<(), String> {
        let Ok(literal) = word.parse::<i64>() else {
            return Err(format!("`{word}` is no literal: expected a number, or 0 after a clause"));
        };
        if literal == 0 {
            return self.end_clause(line, clauses);
        }
        let variable = literal.unsigned_abs();
        if variable > variables as u64 {
            return Err(format!("`{word}` is above the last variable: expected 1 to {variables}"));
        }
        let option = option(variable as usize - 1);
        let rule = self.begun.get_or_insert_with(Rule::default);
        match literal > 0 {
            true => rule.fitted |= option,
            false => rule.left_out |= option,
        }
        Ok(())
    }

    fn end_clause(&mut self, line: usize, clauses: usize) -> Result<(), String> {
        if self.count() == clauses {
            return Err(format!("one more clause than the head says: expected {clauses}"));
        }
        let rule = self.begun.take().unwrap_or_default();
        match rule.fitted & rule.left_out == 0 {
            true => self.clauses.book.rules.push(rule),
            false => self.clauses.always_kept.push(line),
        }
        Ok(())
    }

    fn count(&self) -> usize {
        self.clauses.book.rules.len() + self.clauses.always_kept.len()
    }

    fn finish(self) -> Result<Clauses, String> {
        let count = self.count();
        match self.head {
            None => Err("no head: expected `p cnf VARIABLES CLAUSES`".to_string()),
            Some(_) if self.begun.is_some() => {
                Err("the last clause does not end: expected 0 after it".to_string())
            }
            Some((_, clauses)) if count < clauses => {
                Err(format!("{count} of {clauses} clauses: expected as many as the head says"))
            }
            Some(_) => Ok(self.clauses),
        }
    }
}

#[cfg(test)]
mod tests {
    use super::*;

    fn rule(fitted: u64, left_out: u64) -> Rule {
        Rule { fitted, left_out }
    }

    #[test]
    fn a_book_and_its_order_are_written() {
        let book = Book { options: 64, rules: vec![rule(1, 1 << 63), rule(0, 0)] };
        let order = Order { wanted: 2, unwanted: 5, standard: 0 };
        assert_eq!(write(&book, order), "p cnf 64 5\n1 -64 0\n0\n-1 0\n2 0\n-3 0\n");
    }

    #[test]
    fn a_standard_option_is_a_wish_unless_it_is_unwanted() {
        let book = Book { options: 4, rules: vec![rule(1, 2)] };
        let order = Order { wanted: 2, unwanted: 4, standard: 14 };
        assert_eq!(write(&book, order), "p cnf 4 4\n1 -2 0\n2 0\n-3 0\n4 0\n");
    }

    #[test]
    fn what_is_written_reads_back_with_wishes_as_rules() {
        let mut book = Book { options: 64, rules: vec![rule(1, 1 << 63), rule(0, 0)] };
        let text = write(&book, Order { wanted: 2, unwanted: 1, standard: 0 });
        book.rules.extend([rule(0, 1), rule(2, 0)]);
        assert_eq!(read("f", &text), Ok(Clauses { book, always_kept: vec![] }));
        let empty = write(&Book::default(), Order::default());
        assert_eq!(read("f", &empty), Ok(Clauses::default()));
    }

    #[test]
    fn the_free_form_is_read() {
        let text = "c a comment\np  cnf 3 4\n1 -2\n 3 0 2 2 0\n\n3 -3 1 0\n0\n%\n0\n";
        let clauses = read("f", text).unwrap();
        assert_eq!(clauses.book.rules, [rule(5, 2), rule(2, 0), rule(0, 0)]);
        assert_eq!(clauses.always_kept, [6]);
    }

    #[test]
    fn each_mistake_has_its_place_and_what_was_expected() {
        let due = [
            ("", "line 1: no head: expected `p cnf VARIABLES CLAUSES`"),
            ("c\n1 0", "line 2: expected a line `p cnf VARIABLES CLAUSES` before the clauses"),
            ("p sat 3 1", "line 1: `p sat 3 1` is no head: expected `p cnf VARIABLES CLAUSES`"),
            ("p cnf 3", "line 1: `p cnf 3` is no head: expected `p cnf VARIABLES CLAUSES`"),
            ("p cnf 3 -1", "line 1: `p cnf 3 -1` is no head: expected `p cnf VARIABLES CLAUSES`"),
            ("p cnf 65 1", "line 1: 65 variables: expected at most 64"),
            ("p cnf 1 1025", "line 1: 1025 clauses: expected at most 1024"),
            ("p cnf 1 0\np cnf 1 0", "line 2: a second `p` line: expected one"),
            ("p cnf 1 1\nx 0", "line 2: `x` is no literal: expected a number, or 0 after a clause"),
            ("p cnf 2 1\n-3 0", "line 2: `-3` is above the last variable: expected 1 to 2"),
            ("p cnf 1 1\n1", "line 2: the last clause does not end: expected 0 after it"),
            ("p cnf 1 2\n1 0\n", "line 2: 1 of 2 clauses: expected as many as the head says"),
            ("p cnf 1 1\n1 0\n0", "line 3: one more clause than the head says: expected 1"),
        ];
        for (text, what) in due {
            assert_eq!(read("f", text).unwrap_err().to_string(), format!("f: {what}"), "{text}");
        }
    }

    #[test]
    fn the_largest_file_is_read() {
        let text = format!("p cnf 64 1024\n{}", "64 0\n".repeat(1024));
        assert_eq!(read("f", &text).unwrap().book.rules.len(), 1024);
    }
}
