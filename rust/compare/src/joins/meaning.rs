//! What a joint book means: that its rules are those of the two books, which choices keep it, and whether it
//! can be built, each by the books and the pairs themselves.

use crate::choices::{keeps_all, MOST_OPTIONS};
use crate::question::Join;
use optbook::bytes::{input_bytes, read_input};
use optbook::{dimacs, first, option, Book, Order, Rule};

/// An outside solver: clauses in the DIMACS form can all be kept.
pub type Outside<'a> = &'a dyn Fn(&str) -> Result<bool, String>;

/// Two books, the pairs of their options by index, counted from 0, and their joint book; and the index there of
/// each option of the second.
pub struct Books {
    first: Book,
    second: Book,
    pairs: Vec<[usize; 2]>,
    joint: Book,
    second_in_joint: Vec<usize>,
}

/// Whether the two books and the joint one can be built.
#[derive(Clone, Copy, Debug, PartialEq, Eq, PartialOrd, Ord)]
pub struct Built {
    pub first: bool,
    pub second: bool,
    pub joint: bool,
}

impl Books {
    /// The books of a join that gave this joint one.
    pub fn read(join: &Join, joint: &[u8]) -> Result<Books, String> {
        let read = |book: &[u8]| read_input(&input_bytes(Order::default(), book));
        let ((_, first), (_, second)) = (read(&join.first)?, read(&join.second)?);
        let (_, joint) = read(joint).map_err(|fault| format!("the joint book is none: {fault}"))?;
        let index = |option: u8| usize::from(option) - 1;
        let pairs = join.pairs.chunks_exact(2).map(|pair| [index(pair[0]), index(pair[1])]);
        let pairs: Vec<[usize; 2]> = pairs.collect();
        let mut next = first.options;
        let in_joint = |of_second| match pairs.iter().find(|pair| pair[1] == of_second) {
            Some(pair) => pair[0],
            None => {
                next += 1;
                next - 1
            }
        };
        let second_in_joint: Vec<usize> = (0..second.options).map(in_joint).collect();
        match joint.options == next {
            true => Ok(Books { first, second, pairs, joint, second_in_joint }),
            false => Err(format!("the joint book has {} options, due are {next}", joint.options)),
        }
    }

    /// The two parts of a set of the joint book's options, each as a set of its own book's.
    fn parts(&self, set: u64) -> [u64; 2] {
        let in_joint = self.second_in_joint.iter().enumerate();
        let of_second = in_joint.filter(|(_, in_joint)| set & option(**in_joint) != 0);
        [set & first(self.first.options), of_second.map(|(index, _)| option(index)).sum()]
    }

    /// The joint book's rules are the first's and then the second's: each names what the one of its own book
    /// names, and nothing else.
    pub fn rules_are_theirs(&self) -> Result<(), String> {
        let books = [&self.first, &self.second];
        let theirs = |side: usize| books[side].rules.iter().map(move |rule| (side, rule));
        let due: Vec<(usize, &Rule)> = theirs(0).chain(theirs(1)).collect();
        if due.len() != self.joint.rules.len() {
            let rules = self.joint.rules.len();
            return Err(format!("the joint book has {rules} rules, due are {}", due.len()));
        }
        let is_such = |set: u64, side: usize, due: u64| {
            self.parts(set)[side] == due && set.count_ones() == due.count_ones()
        };
        let is_theirs = |(rule, (side, due)): (&Rule, &(usize, &Rule))| {
            is_such(rule.fitted, *side, due.fitted) && is_such(rule.left_out, *side, due.left_out)
        };
        match self.joint.rules.iter().zip(&due).position(|both| !is_theirs(both)) {
            Some(index) => Err(format!("rule {} is not its own book's", index + 1)),
            None => Ok(()),
        }
    }

    /// Each choice keeps the joint book exactly if its two parts keep their own; and whether one does. Nothing
    /// is said of a larger book.
    pub fn by_choices(&self) -> Result<Option<bool>, String> {
        if self.joint.options > MOST_OPTIONS {
            return Ok(None);
        }
        let mut can = false;
        for choice in 0..1 << self.joint.options {
            let [first, second] = self.parts(choice);
            let due = keeps_all(&self.first, first) && keeps_all(&self.second, second);
            if keeps_all(&self.joint, choice) != due {
                return Err(format!("of the choice {choice} and its two parts one side is kept"));
            }
            can |= due;
        }
        Ok(Some(can))
    }

    /// What the outside solver says of the three books. The joint one can be built exactly if the clauses of
    /// both can be kept together, and without pairs exactly if both books can.
    pub fn by_solver(&self, outside: Outside) -> Result<Built, String> {
        let can = |book: &Book| outside(&dimacs::write(book, Order::default()));
        let (first, second, joint) = (can(&self.first)?, can(&self.second)?, can(&self.joint)?);
        let built = Built { first, second, joint };
        if outside(&self.side_by_side())? != joint {
            return Err(format!("{built:?}, but not of both books side by side"));
        }
        match joint == (first && second) || (!self.pairs.is_empty() && !joint) {
            true => Ok(built),
            false => Err(format!("{built:?}, with {} pairs", self.pairs.len())),
        }
    }

    /// The clauses of both books, the second's variables after the first's, and two for each pair: its options
    /// are fitted together or left out together.
    fn side_by_side(&self) -> String {
        let mut clauses = Vec::new();
        for (book, before) in [(&self.first, 0), (&self.second, self.first.options)] {
            clauses.extend(book.rules.iter().map(|rule| clause(rule, before)));
        }
        for [first, second] in &self.pairs {
            let (a, b) = (first + 1, self.first.options + second + 1);
            clauses.extend([format!("-{a} {b} 0\n"), format!("{a} -{b} 0\n")]);
        }
        let variables = self.first.options + self.second.options;
        format!("p cnf {variables} {}\n{}", clauses.len(), clauses.concat())
    }
}

/// A rule as a clause, with so many variables before those of its book.
fn clause(rule: &Rule, before: usize) -> String {
    let literals = |word: u64, sign: &str| -> String {
        let options = (0..optbook::OPTIONS).filter(|&index| word & option(index) != 0);
        options.map(|index| format!("{sign}{} ", before + index + 1)).collect()
    };
    literals(rule.fitted, "") + &literals(rule.left_out, "-") + "0\n"
}

#[cfg(test)]
mod tests {
    use super::*;
    use optbook::bytes::book_bytes;

    fn book(options: usize, rules: &[(u64, u64)]) -> Book {
        let rules = rules.iter().map(|&(fitted, left_out)| Rule { fitted, left_out }).collect();
        Book { options, rules }
    }

    /// Of two options the rule "1 or not 2", and of three the rules "3" and "2 or not 1"; option 2 of the second
    /// is option 1 of the first.
    fn read(joint: &Book) -> Result<Books, String> {
        let [first, second] = [book(2, &[(1, 2)]), book(3, &[(4, 0), (2, 1)])];
        let [first, second] = [first, second].map(|book| book_bytes(&book));
        let join = Join { first, second, pairs: vec![1, 2], room: 100 };
        Books::read(&join, &book_bytes(joint))
    }

    fn good() -> Book {
        book(4, &[(1, 2), (8, 0), (1, 4)])
    }

    #[test]
    fn a_joint_book_has_the_rules_of_both() {
        let books = read(&good()).unwrap();
        assert_eq!(books.parts(0b1011), [0b11, 0b110]);
        assert_eq!(books.rules_are_theirs(), Ok(()));
        assert_eq!(books.by_choices(), Ok(Some(true)));
        let told = |joint: Book| read(&joint).and_then(|books| books.rules_are_theirs());
        assert_eq!(told(book(5, &[])), Err("the joint book has 5 options, due are 4".to_string()));
        let two = book(4, &[(1, 2), (8, 0)]);
        assert_eq!(told(two), Err("the joint book has 2 rules, due are 3".to_string()));
        let turned = book(4, &[(1, 2), (1, 4), (8, 0)]);
        assert_eq!(told(turned), Err("rule 2 is not its own book's".to_string()));
        let more = book(4, &[(1, 2), (8, 0), (1, 6)]);
        assert_eq!(told(more), Err("rule 3 is not its own book's".to_string()));
        let none = Book { options: 4, rules: vec![Rule { fitted: 16, left_out: 0 }] };
        assert!(told(none).unwrap_err().starts_with("the joint book is none: rule 1 names"));
    }

    #[test]
    fn a_choice_that_keeps_one_side_alone_is_told() {
        let wrong = read(&book(4, &[(1, 2), (8, 0), (2, 4)])).unwrap();
        let told = wrong.by_choices().unwrap_err();
        assert_eq!(told, "of the choice 13 and its two parts one side is kept");
    }

    #[test]
    fn both_books_stand_side_by_side_with_their_pairs_equal() {
        let due = "p cnf 5 5\n1 -2 0\n5 0\n4 -3 0\n-1 4 0\n1 -4 0\n";
        assert_eq!(read(&good()).unwrap().side_by_side(), due);
    }

    /// The solver is asked for the first book, the second, the joint one and both side by side.
    #[test]
    fn verdicts_that_do_not_go_together_are_told() {
        let by = |pairs: usize, answers: [bool; 4]| {
            let mut books = read(&good()).unwrap();
            books.pairs.truncate(pairs);
            let asked = std::cell::Cell::new(0);
            let outside = |_: &str| Ok(answers[asked.replace(asked.get() + 1)]);
            books.by_solver(&outside)
        };
        let can = Built { first: true, second: true, joint: true };
        assert_eq!(by(1, [true; 4]), Ok(can));
        assert_eq!(by(1, [true, true, false, false]), Ok(Built { joint: false, ..can }));
        assert!(by(1, [true, true, true, false]).unwrap_err().contains("side by side"));
        assert!(by(1, [true, false, true, true]).unwrap_err().ends_with(", with 1 pairs"));
        assert!(by(0, [true, true, false, false]).unwrap_err().ends_with(", with 0 pairs"));
        assert!(by(0, [true, false, false, false]).is_ok());
    }
}
