//! Generated cases through the checker under test and through the port, the whole printed outcome
//! compared; each verdict also through an outside solver, and on small books by trying all choices.
//! No derived rule may be covered by an earlier one.

use crate::choices;
use crate::kinds::{self, Case, Kind, KINDS};
use crate::question::{ending_name, first_difference, Check, Question};
use crate::under_test::UnderTest;
use optbook::bytes::read_input;
use optbook::{Book, Order, OPTIONS};
use port::{Ending, Places, Rule};
use std::collections::BTreeMap;
use std::fmt::Write;

/// An outside solver: book and order can be built.
pub type Outside<'a> = &'a dyn Fn(Order, &Book) -> Result<bool, String>;

/// What was compared: cases by kind and ending, and the verdicts confirmed by others.
#[derive(Default)]
pub struct Tally {
    endings: BTreeMap<(usize, String), usize>,
    pub compared: usize,
    pub not_taken: usize,
    pub solved_outside: usize,
    pub tried_all_choices: usize,
    pub not_covered: usize,
}

/// Runs this many generated books; the first difference ends it and is told in words.
pub fn run(
    tested: &mut dyn UnderTest,
    outside: Outside,
    seed: u64,
    books: usize,
) -> Result<Tally, String> {
    let mut tally = Tally::default();
    for number in 0..books {
        let case = kinds::case(seed, number);
        let mut all = vec![case.check.clone()];
        if tested.takes(&case.check.with_limits(Places::equal(0, 64), 0).into()) {
            all.extend(tight_checks(&case.check));
        }
        for check in all {
            let case = Case { check, ..case };
            compare(tested, outside, &case, &mut tally).map_err(|difference| {
                format!("book {number} of seed {seed}: {difference}\n{}", told(&case))
            })?;
        }
    }
    Ok(tally)
}

/// Compares one case, and counts it.
fn compare(
    tested: &mut dyn UnderTest,
    outside: Outside,
    case: &Case,
    tally: &mut Tally,
) -> Result<(), String> {
    let check = &case.check;
    let question = Question::from(check.clone());
    if !tested.takes(&question) {
        tally.not_taken += 1;
        return Ok(());
    }
    let outcome = check.port_outcome();
    let (due, printed) = (outcome.to_string(), tested.printed(&question)?);
    if printed != due {
        return Err(told_apart(&tested.name(), &printed, &due));
    }
    if let Ending::Verdict(can) = outcome.ending {
        confirm(outside, &check.input, can, tally)?;
    }
    tally.not_covered += not_covered(&check.input, &outcome.derived)?;
    tally.add(case.kind, outcome.ending);
    Ok(())
}

/// The first lines of both outcomes, and the first line that differs.
fn told_apart(name: &str, printed: &str, due: &str) -> String {
    let first = |text: &str| text.lines().next().unwrap_or("(nothing)").to_string();
    let line = first_difference(printed, due);
    format!(
        "the outcomes differ\n{name}: {}\nport: {}\n{name}'s {line}",
        first(printed),
        first(due)
    )
}

/// The verdict agrees with the outside solver and, on a small book, with trying all choices.
fn confirm(outside: Outside, input: &[u8], can: bool, tally: &mut Tally) -> Result<(), String> {
    let (order, book) = read_input(input)
        .map_err(|fault| format!("a verdict on bytes that are no book: {fault}"))?;
    if outside(order, &book)? != can {
        return Err(format!("the verdict is {}, the outside solver's is not", word_of(can)));
    }
    tally.solved_outside += 1;
    if let Some(by_choices) = choices::can_be_built(order, &book) {
        if by_choices != can {
            return Err(format!("the verdict is {}, but not by trying all choices", word_of(can)));
        }
        tally.tried_all_choices += 1;
    }
    Ok(())
}

/// How many derived rules there are, of which no earlier rule, of the book, of the completed order or
/// derived, may have all its entries among theirs.
fn not_covered(input: &[u8], derived: &[Rule]) -> Result<usize, String> {
    if derived.is_empty() {
        return Ok(0);
    }
    let (order, book) = read_input(input)?;
    let order = order.completed();
    let mut earlier: Vec<(u64, u64)> =
        book.rules.iter().map(|rule| (rule.fitted, rule.left_out)).collect();
    for option in (0..OPTIONS).map(optbook::option) {
        earlier.push((order.wanted & option, order.unwanted & option));
    }
    earlier.retain(|&rule| rule != (0, 0));
    for &Rule { fitted, left_out } in derived {
        let among = |&&(f, l): &&(u64, u64)| f & fitted == f && l & left_out == l;
        if let Some((f, l)) = earlier.iter().find(among) {
            return Err(format!("derived rule {fitted} {left_out} is covered by rule {f} {l}"));
        }
        earlier.push((fitted, left_out));
    }
    Ok(derived.len())
}

fn word_of(can: bool) -> &'static str {
    if can {
        "can"
    } else {
        "cannot"
    }
}

/// The check again with limits at the edge: exactly enough, one branching fewer, one place fewer,
/// and lengths that are refused.
fn tight_checks(check: &Check) -> Vec<Check> {
    let outcome = check.port_outcome();
    let (places, allowance) = (outcome.derived.len(), outcome.branchings);
    let mut checks = vec![check.with_limits(Places::equal(places, 64), allowance)];
    if allowance > 0 {
        checks.push(check.with_limits(Places::equal(places, 64), allowance - 1));
    }
    if places > 0 {
        checks.push(check.with_limits(Places::equal(places - 1, 70), allowance));
    }
    let unequal = Places { derived: [places, places + 1], records: [64; 3] };
    checks.push(check.with_limits(unequal, allowance));
    let short = Places { derived: [places; 2], records: [64, 63, 64] };
    checks.push(check.with_limits(short, allowance));
    checks
}

/// The case in words.
fn told(case: &Case) -> String {
    format!("kind: {}\n{}", case.kind.name(), case.check.told())
}

impl Tally {
    fn add(&mut self, kind: Kind, ending: Ending) {
        let position = KINDS.iter().position(|&known| known == kind).expect("a known kind");
        *self.endings.entry((position, ending_name(ending))).or_default() += 1;
        self.compared += 1;
    }

    /// So many cases, of which kinds and endings.
    pub fn told(&self) -> String {
        let mut text = String::new();
        for (position, kind) in KINDS.iter().enumerate() {
            let of_kind = self.endings.iter().filter(|((at, _), _)| *at == position);
            let counts: Vec<String> =
                of_kind.clone().map(|((_, ending), count)| format!("{ending} {count}")).collect();
            let sum: usize = of_kind.map(|(_, count)| count).sum();
            if sum > 0 {
                let _ = writeln!(text, "{:<20} {sum:>6}   {}", kind.name(), counts.join(", "));
            }
        }
        let _ = writeln!(text, "outcomes compared: {}", self.compared);
        let _ = writeln!(text, "verdicts by the outside solver too: {}", self.solved_outside);
        let _ = writeln!(text, "verdicts by trying all choices too: {}", self.tried_all_choices);
        let _ = writeln!(text, "derived rules that no earlier one covers: {}", self.not_covered);
        if self.not_taken > 0 {
            let _ = writeln!(text, "cases that the checker has no way to take: {}", self.not_taken);
        }
        text
    }
}

#[cfg(test)]
mod tests {
    use super::*;
    use port::Outcome;

    /// A checker made of a function on the outcome that is due.
    struct Made {
        change: fn(Outcome) -> String,
        takes_limits: bool,
    }

    impl UnderTest for Made {
        fn name(&self) -> String {
            "made".to_string()
        }

        fn takes(&self, question: &Question) -> bool {
            match question {
                Question::Check(check) => self.takes_limits || check.is_of_program(),
                _ => false,
            }
        }

        fn printed(&mut self, question: &Question) -> Result<String, String> {
            match question {
                Question::Check(check) => Ok((self.change)(check.port_outcome())),
                _ => Err("no check".to_string()),
            }
        }
    }

    /// An outside solver that asks the port, for books too large to try.
    fn honest(order: Order, book: &Book) -> Result<bool, String> {
        let bytes = optbook::bytes::book_bytes(book);
        let input = optbook::bytes::input_bytes(order, &bytes);
        Ok(port::run_program(&input).ending == port::CAN)
    }

    fn run_made(change: fn(Outcome) -> String, outside: Outside) -> Result<Tally, String> {
        run(&mut Made { change, takes_limits: false }, outside, 3, 100)
    }

    #[test]
    fn equal_outcomes_are_counted_by_kind_and_ending() {
        let tally = run_made(|outcome| outcome.to_string(), &honest).unwrap();
        assert_eq!(tally.compared, 100);
        assert!(tally.solved_outside > tally.tried_all_choices);
        assert!(tally.tried_all_choices > 0);
        let told = tally.told();
        assert!(told.contains("order above n             4   refused 7 4\n"), "{told}");
        assert!(told.contains("standard above n          4   refused 12 4\n"), "{told}");
    }

    #[test]
    fn a_wrong_record_is_a_difference_with_its_bytes() {
        let wrong = |mut outcome: Outcome| {
            if let Some(record) = outcome.records.last_mut() {
                record.struck ^= 1;
            }
            outcome.to_string()
        };
        let difference = run_made(wrong, &honest).err().unwrap();
        assert!(difference.contains("the outcomes differ\nmade: can 0"), "{difference}");
        assert!(difference.contains("standard input in hexadecimal:\n0"), "{difference}");
    }

    #[test]
    fn a_difference_has_both_first_lines_and_the_line_that_differs() {
        let told = told_apart("made", "can 0 0 0 1\nr 0 0 1\n", "can 0 0 0 1\n");
        let due = "the outcomes differ\nmade: can 0 0 0 1\nport: can 0 0 0 1\n\
                   made's line 2 is `r 0 0 1`, due is nothing";
        assert_eq!(told, due);
    }

    #[test]
    fn a_fixed_answer_is_a_difference() {
        assert!(run_made(|_| "can 0 0 0 0\n".to_string(), &honest).is_err());
        assert!(run_made(|_| String::new(), &honest).is_err());
    }

    #[test]
    fn an_outside_solver_that_disagrees_ends_the_run() {
        let difference = run_made(|o| o.to_string(), &|_, _| Ok(true)).err().unwrap();
        assert!(difference.contains("the outside solver's is not"), "{difference}");
    }

    #[test]
    fn a_derived_rule_that_an_earlier_one_covers_is_told() {
        let book = Book { options: 3, rules: vec![optbook::Rule { fitted: 1, left_out: 4 }] };
        let order = Order { wanted: 0, unwanted: 1, standard: 3 };
        let input = optbook::bytes::input_bytes(order, &optbook::bytes::book_bytes(&book));
        let of = |rules: &[(u64, u64)]| {
            let derived: Vec<Rule> =
                rules.iter().map(|&(fitted, left_out)| Rule { fitted, left_out }).collect();
            not_covered(&input, &derived)
        };
        assert_eq!(of(&[(5, 0), (1, 0)]), Ok(2));
        let told = |by: &str| Err(format!("derived rule 5 0 is covered by rule {by}"));
        assert_eq!(of(&[(1, 0), (5, 0)]), told("1 0"));
        assert_eq!(of(&[(5, 0), (5, 0)]), told("5 0"));
        assert!(of(&[(1, 4)]).is_err());
        assert!(of(&[(6, 0)]).unwrap_err().ends_with("is covered by rule 2 0"));
        assert!(of(&[(0, 5)]).unwrap_err().ends_with("is covered by rule 0 1"));
    }

    #[test]
    fn a_checker_that_takes_limits_is_tried_at_their_edge() {
        let mut made = Made { change: |outcome| outcome.to_string(), takes_limits: true };
        let told = run(&mut made, &honest, 3, 100).unwrap().told();
        for ending in ["stopped 10", "stopped 11", "refused 9"] {
            assert!(told.contains(ending), "no {ending} in\n{told}");
        }
    }
}
