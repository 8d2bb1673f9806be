//! What an answer to turns means: beside the check of the same order, after the first two choices, and as a
//! quantified formula.

use crate::question::{forced_name, Check, Turns};
use crate::under_test::UnderTest;
use optbook::bytes::{input_bytes, read_input};
use optbook::{dimacs, number};
use port::Response;

/// An outside solver: quantified clauses in the QDIMACS form are true.
pub type Outside<'a> = &'a dyn Fn(&str) -> Result<bool, String>;

/// What a check says of the order, beside whether the planner can force it.
#[derive(Clone, Copy, Debug, PartialEq, Eq, PartialOrd, Ord)]
pub enum Built {
    CanAndForced,
    CanButOpen,
    CannotAndOpen,
    Stopped,
}

impl Built {
    /// Those that have to be seen.
    pub const DUE: [Built; 3] = [Built::CanAndForced, Built::CanButOpen, Built::CannotAndOpen];

    pub fn name(self) -> &'static str {
        match self {
            Built::CanAndForced => "can and forced",
            Built::CanButOpen => "can but open",
            Built::CannotAndOpen => "cannot and open",
            Built::Stopped => "stopped",
        }
    }
}

/// What the checker's own check says of the order, which is not refused. It is an error if it says `cannot`
/// where the planner can force it, or `can` where no option is free and he cannot.
pub fn by_check(tested: &mut dyn UnderTest, turns: &Turns, forced: bool) -> Result<Built, String> {
    let check = Check::of_program(input_bytes(turns.order, &turns.book));
    let printed = tested.printed(&check.into())?;
    match (printed.split(' ').next(), forced) {
        (Some("can"), true) => Ok(Built::CanAndForced),
        (Some("can"), false) if !turns.free().is_empty() => Ok(Built::CanButOpen),
        (Some("cannot"), false) => Ok(Built::CannotAndOpen),
        (Some("stopped"), _) => Ok(Built::Stopped),
        _ => {
            let (name, line) = (tested.name(), printed.lines().next().unwrap_or_default());
            let forced = forced_name(forced);
            Err(format!("it is {forced}, and {name}'s check of the order is `{line}`"))
        }
    }
}

/// Orders after the buyer's first choice and a choice of the planner's, as wishes, each with whether the planner
/// can still force it by what was answered: with the answer he can, without one he can with neither choice, and
/// where the answer is to fit the option he cannot if he leaves it out. There are none without a second free
/// option.
pub fn after_two(turns: &Turns, answer: &port::Turns) -> Vec<(Turns, bool)> {
    use Response::{Fitted, Out};
    let free = turns.free();
    let [first, second, ..] = free.as_slice() else { return Vec::new() };
    let mut after = Vec::new();
    for (choice, response) in [(Out, answer.to_out), (Fitted, answer.to_fitted)] {
        let due: &[(Response, bool)] = match response {
            Some(Out) => &[(Out, true)],
            Some(Fitted) => &[(Out, false), (Fitted, true)],
            None => &[(Out, false), (Fitted, false)],
        };
        for (response, forced) in due {
            after.push((turns.with_wishes(&[(*first, choice), (*second, *response)]), *forced));
        }
    }
    after
}

/// Book and order as quantified clauses, in the QDIMACS form: the rules and the wishes, after the variables in
/// the order in which they are settled. The wished options come first, and there is one way to settle them; of
/// a free option that the buyer settles both ways have to do, and of one that the planner settles one.
pub fn quantified(turns: &Turns) -> Result<String, String> {
    let (order, book) = read_input(&input_bytes(turns.order, &turns.book))?;
    let clauses = dimacs::write(&book, order);
    let (head, clauses) = clauses.split_once('\n').ok_or("clauses without a head")?;
    let free: Vec<u32> = turns.free().into_iter().map(number).collect();
    let wished = (1..=book.options as u32).filter(|option| !free.contains(option));
    let mut prefix: String = wished.map(|option| format!("e {option} 0\n")).collect();
    for (quantifier, option) in ["a", "e"].iter().cycle().zip(free) {
        prefix += &format!("{quantifier} {option} 0\n");
    }
    Ok(format!("{head}\n{prefix}{clauses}"))
}

#[cfg(test)]
mod tests {
    use super::*;
    use crate::under_test::Says;
    use optbook::bytes::book_bytes;
    use optbook::{Book, Order, Rule};

    /// Four options and the rules "1 or not 3" and "2 or 4".
    fn made(wanted: u64, unwanted: u64, standard: u64) -> Turns {
        let rules = [(1, 4), (10, 0)].map(|(fitted, left_out)| Rule { fitted, left_out });
        let book = book_bytes(&Book { options: 4, rules: rules.to_vec() });
        Turns { book, order: Order { wanted, unwanted, standard } }
    }

    #[test]
    fn a_check_says_what_goes_with_the_answer() {
        let (some, none) = (made(0, 1, 0), made(3, 12, 0));
        let check = |said, turns, forced| by_check(&mut Says(said), turns, forced);
        assert_eq!(check("can 0 0 0 0\n", &some, true), Ok(Built::CanAndForced));
        assert_eq!(check("can 0 0 0 0\n", &some, false), Ok(Built::CanButOpen));
        assert_eq!(check("can 0 0 0 0\n", &none, true), Ok(Built::CanAndForced));
        assert_eq!(check("cannot 0 0 0 0\n", &some, false), Ok(Built::CannotAndOpen));
        assert_eq!(check("cannot 0 0 0 0\n", &none, false), Ok(Built::CannotAndOpen));
        assert_eq!(check("stopped 11 0 0 0\n", &none, true), Ok(Built::Stopped));
        let due = |forced, said| {
            Err(format!("it is {forced}, and made's check of the order is `{said} 0 0 0`"))
        };
        assert_eq!(check("cannot 0 0 0\n", &some, true), due("forced", "cannot"));
        assert_eq!(check("cannot 0 0 0\n", &none, true), due("forced", "cannot"));
        assert_eq!(check("can 0 0 0\n", &none, false), due("open", "can"));
        assert_eq!(check("refused 7 0 0 0\n", &some, false), due("open", "refused 7"));
    }

    /// Options 1, 3 and 4 are free, so 1 is the buyer's and 3 the planner's.
    #[test]
    fn the_first_two_choices_are_wishes() {
        let turns = made(2, 0, 0);
        let after = |to_out, to_fitted| {
            let answer = port::Turns { forced: true, to_out, to_fitted };
            let after = after_two(&turns, &answer).into_iter();
            after
                .map(|(after, forced)| (after.order.wanted, after.order.unwanted, forced))
                .collect()
        };
        let both: Vec<(u64, u64, bool)> = after(Some(Response::Out), Some(Response::Fitted));
        assert_eq!(both, [(2, 5, true), (3, 4, false), (7, 0, true)]);
        let one: Vec<(u64, u64, bool)> = after(Some(Response::Fitted), None);
        assert_eq!(one, [(2, 5, false), (6, 1, true), (3, 4, false), (7, 0, false)]);
        let answer = port::Turns { forced: true, to_out: None, to_fitted: None };
        assert_eq!(after_two(&made(7, 0, 0), &answer).len(), 0);
        assert_eq!(after_two(&made(3, 0, 0), &answer).len(), 4);
    }

    #[test]
    fn free_options_are_quantified_in_turn_after_the_wished_ones() {
        let rules = "1 -3 0\n2 4 0\n";
        let of = |wanted, unwanted, standard| quantified(&made(wanted, unwanted, standard));
        let due = format!("p cnf 4 2\na 1 0\ne 2 0\na 3 0\ne 4 0\n{rules}");
        assert_eq!(of(0, 0, 0), Ok(due));
        let due = format!("p cnf 4 3\ne 1 0\na 2 0\ne 3 0\na 4 0\n{rules}-1 0\n");
        assert_eq!(of(0, 1, 1), Ok(due));
        let due = format!("p cnf 4 4\ne 2 0\ne 4 0\na 1 0\ne 3 0\n{rules}2 0\n4 0\n");
        assert_eq!(of(2, 0, 8), Ok(due));
        assert!(of(16, 0, 0).is_err());
    }
}
