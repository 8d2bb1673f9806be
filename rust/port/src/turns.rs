//! The buyer and the planner settle the free options in turns. All plays are listed with who wins each, and
//! the list is gone through from the last option back to the first.

use crate::request::{book_with_order, members, Order};
use crate::words::{first, Rule};

/// So many options may be free.
const FREE: usize = 12;

/// What the planner says of an option.
#[derive(Clone, Copy, Debug, PartialEq, Eq)]
pub enum Response {
    Out,
    Fitted,
}

/// Whether the planner can force that every rule and wish is kept, and what he says of the second free option
/// when the buyer leaves out the first or fits it; nothing where he can then force it no more, or where there
/// is no second one.
#[derive(Clone, Copy, Debug, PartialEq, Eq)]
pub struct Turns {
    pub forced: bool,
    pub to_out: Option<Response>,
    pub to_fitted: Option<Response>,
}

/// What comes of the free options' turns, or the number of the refusal: 1 to 8 or 12 of book and order, or 16.
pub fn turns(book: &[u8], order: Order) -> Result<Turns, u32> {
    let book = book_with_order(book, order)?;
    let wanted = order.wanted | (order.standard & !order.unwanted);
    let free = members(first(book.n) & !(wanted | order.unwanted));
    if free.len() > FREE {
        return Err(16);
    }
    let is_won = |play: usize| {
        let fitted = wanted | said_fitted(play, &free);
        let is_kept = |rule: &Rule| rule.fitted & fitted != 0 || rule.left_out & !fitted != 0;
        let wishes_kept = wanted & !fitted == 0 && order.unwanted & fitted == 0;
        wishes_kept && book.rules.iter().all(is_kept)
    };
    Ok(settled((0..1 << free.len()).map(is_won).collect()))
}

/// The options that are fitted in the play with this number. The last option has the number's lowest bit, so
/// that two plays that part with the last option stand side by side.
fn said_fitted(play: usize, free: &[u64]) -> u64 {
    let from_last = free.iter().rev().enumerate();
    from_last.filter(|(bit, _)| play >> bit & 1 == 1).map(|(_, option)| option).sum()
}

/// What comes of the turns, from a list of all plays that says which the planner wins.
fn settled(mut won: Vec<bool>) -> Turns {
    let answer = |out: bool, fitted: bool| match (out, fitted) {
        (true, _) => Some(Response::Out),
        (false, true) => Some(Response::Fitted),
        (false, false) => None,
    };
    let (mut to_out, mut to_fitted) = (None, None);
    while won.len() > 1 {
        if let &[out_out, out_fitted, fitted_out, fitted_fitted] = won.as_slice() {
            to_out = answer(out_out, out_fitted);
            to_fitted = answer(fitted_out, fitted_fitted);
        }
        won = without_the_last(&won);
    }
    Turns { forced: won[0], to_out, to_fitted }
}

/// The list with one option fewer: the buyer has the first option, the third and so on, and of his the planner
/// has to win both plays; of his own one is enough.
fn without_the_last(won: &[bool]) -> Vec<bool> {
    let is_buyers = won.len().ilog2() % 2 == 1;
    let both = |plays: &[bool]| match is_buyers {
        true => plays[0] && plays[1],
        false => plays[0] || plays[1],
    };
    won.chunks(2).map(both).collect()
}

#[cfg(test)]
mod tests {
    use super::*;

    const NONE: Option<Response> = None;
    const OUT: Option<Response> = Some(Response::Out);
    const FITTED: Option<Response> = Some(Response::Fitted);

    /// The bytes of a book of n options with these rules.
    fn book(n: u8, rules: &[(u64, u64)]) -> Vec<u8> {
        let mut bytes = vec![n, rules.len() as u8, (rules.len() >> 8) as u8];
        rules.iter().for_each(|rule| bytes.extend(rule.0.to_le_bytes()));
        rules.iter().for_each(|rule| bytes.extend(rule.1.to_le_bytes()));
        bytes
    }

    fn asked(book: &[u8], [wanted, unwanted, standard]: [u64; 3]) -> Result<Turns, u32> {
        turns(book, Order { wanted, unwanted, standard })
    }

    /// Whether it is forced, and the two answers, for a book of n options with these rules.
    fn of(
        n: u8,
        rules: &[(u64, u64)],
        order: [u64; 3],
    ) -> (bool, Option<Response>, Option<Response>) {
        let Turns { forced, to_out, to_fitted } = asked(&book(n, rules), order).unwrap();
        (forced, to_out, to_fitted)
    }

    /// The two options are fitted together or left out together.
    fn alike(one: u64, other: u64) -> [(u64, u64); 2] {
        [(one, other), (other, one)]
    }

    #[test]
    fn with_no_free_option_the_one_choice_decides() {
        assert_eq!(of(0, &[], [0, 0, 0]), (true, NONE, NONE));
        assert_eq!(of(0, &[(0, 0)], [0, 0, 0]), (false, NONE, NONE));
        assert_eq!(of(2, &[(1, 0)], [1, 2, 0]), (true, NONE, NONE));
        assert_eq!(of(2, &[(2, 0)], [1, 2, 0]), (false, NONE, NONE));
        assert_eq!(of(2, &[(0, 2)], [1, 2, 0]), (true, NONE, NONE));
        assert_eq!(of(2, &[(1, 0), (0, 1)], [1, 2, 0]), (false, NONE, NONE));
    }

    #[test]
    fn one_free_option_is_the_buyers_and_has_no_answer() {
        assert_eq!(of(1, &[], [0, 0, 0]), (true, NONE, NONE));
        assert_eq!(of(1, &[(1, 0)], [0, 0, 0]), (false, NONE, NONE));
        assert_eq!(of(1, &[(0, 1)], [0, 0, 0]), (false, NONE, NONE));
        assert_eq!(of(2, &[(3, 0)], [2, 0, 0]), (true, NONE, NONE));
        assert_eq!(of(2, &[(3, 0)], [0, 2, 0]), (false, NONE, NONE));
    }

    #[test]
    fn each_pair_of_answers_to_two_free_options() {
        let two = |rules: &[(u64, u64)]| of(2, rules, [0, 0, 0]);
        assert_eq!(two(&[]), (true, OUT, OUT));
        assert_eq!(two(&alike(1, 2)), (true, OUT, FITTED));
        assert_eq!(two(&[(3, 0), (0, 3)]), (true, FITTED, OUT));
        assert_eq!(two(&[(2, 0)]), (true, FITTED, FITTED));
        assert_eq!(two(&[(1, 0)]), (false, NONE, OUT));
        assert_eq!(two(&[(1, 0), (2, 0)]), (false, NONE, FITTED));
        assert_eq!(two(&[(0, 1)]), (false, OUT, NONE));
        assert_eq!(two(&[(0, 1), (2, 0)]), (false, FITTED, NONE));
        assert_eq!(two(&[(2, 0), (0, 2)]), (false, NONE, NONE));
    }

    /// The planner can repeat what was said before him, but not what is said after him.
    #[test]
    fn options_are_settled_in_ascending_number_by_each_in_turn() {
        assert_eq!(of(3, &alike(2, 4), [0, 0, 0]), (false, NONE, NONE));
        assert_eq!(of(3, &[(6, 0)], [0, 0, 0]), (true, FITTED, FITTED));
        let pairs = |first: [(u64, u64); 2], second| [first, second].concat();
        assert_eq!(of(4, &pairs(alike(1, 2), alike(4, 8)), [0, 0, 0]), (true, OUT, FITTED));
        assert_eq!(of(4, &pairs(alike(1, 8), alike(2, 4)), [0, 0, 0]), (false, NONE, NONE));
        assert_eq!(of(4, &alike(1, 8), [0, 0, 0]), (true, OUT, OUT));
    }

    /// Options 2, 5 and 64 are free: the buyer's, the planner's, the buyer's.
    #[test]
    fn free_options_need_not_stand_side_by_side() {
        let [two, five, last] = [1 << 1, 1 << 4, 1 << 63];
        let wanted = !(two | five | last);
        assert_eq!(of(64, &alike(two, five), [wanted, 0, 0]), (true, OUT, FITTED));
        assert_eq!(of(64, &[(five | last, 0)], [wanted, 0, 0]), (true, FITTED, FITTED));
        assert_eq!(of(64, &alike(five, last), [0, wanted, 0]), (false, NONE, NONE));
    }

    /// Options 1 and 2 are free where they are not standard. Rule: not both, or 3.
    #[test]
    fn a_standard_option_is_fitted_unless_it_is_unwanted() {
        let rules = [(4, 3)];
        assert_eq!(of(3, &rules, [0, 4, 0]), (true, OUT, OUT));
        assert_eq!(of(3, &rules, [0, 4, 1]), (false, NONE, NONE));
        assert_eq!(of(3, &rules, [0, 4, 3]), (false, NONE, NONE));
        assert_eq!(of(3, &rules, [0, 4, 4]), (true, OUT, OUT));
        assert_eq!(of(3, &rules, [0, 4, 6]), (false, NONE, NONE));
        assert_eq!(of(3, &rules, [4, 0, 4]), (true, OUT, OUT));
        assert_eq!(of(3, &rules, [0, 5, 7]), (true, NONE, NONE));
    }

    /// Six pairs that are alike, and the same with one option more.
    #[test]
    fn twelve_options_may_be_free_and_no_more() {
        let pairs: Vec<(u64, u64)> =
            (0..6).flat_map(|i| alike(1 << (2 * i), 2 << (2 * i))).collect();
        assert_eq!(of(12, &pairs, [0, 0, 0]), (true, OUT, FITTED));
        assert_eq!(asked(&book(13, &pairs), [0, 0, 0]), Err(16));
        assert_eq!(of(13, &pairs, [0, 0, 1 << 12]), (true, OUT, FITTED));
        assert_eq!(asked(&book(64, &[]), [0, 0, 0]), Err(16));
    }

    #[test]
    fn book_and_order_are_refused_as_in_a_check_and_before_16() {
        let many = book(20, &[]);
        assert_eq!(asked(&many, [1 << 20, 0, 0]), Err(7));
        assert_eq!(asked(&many, [1, 1, 1 << 20]), Err(8));
        assert_eq!(asked(&many, [1, 0, 1 << 20]), Err(12));
        assert_eq!(asked(&many, [1, 0, 1 << 19]), Err(16));
        let bad: [&[u8]; 4] = [&[20, 0], &[65, 0, 0], &[20, 1, 4], &[20, 1, 0]];
        for (number, bytes) in (1..).zip(bad) {
            assert_eq!(asked(bytes, [1, 1, 1 << 63]), Err(number));
        }
        assert_eq!(asked(&book(20, &[(1 << 20, 0)]), [1, 1, 0]), Err(5));
        assert_eq!(asked(&book(20, &[(1, 1)]), [1, 1, 0]), Err(6));
    }
}
