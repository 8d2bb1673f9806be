//! A desk, which has an order and drafts of it to come back to: the list of the calls that were accepted,
//! and nothing else. How an option stands is found by looking back through the list.

use crate::book::OPTIONS;
use std::iter;
use std::ops::RangeInclusive;

/// The numbers of drafts.
const DRAFTS: RangeInclusive<u32> = 1..=16;

/// A call: a wish for an option is set or cleared, or the order is kept as a draft or returned to.
#[derive(Clone, Copy, Debug, PartialEq, Eq)]
pub enum Call {
    Set { option: u32, fitted: bool },
    Clear { option: u32 },
    Keep { draft: u32 },
    Return { draft: u32 },
}

/// How an option stands in an order.
#[derive(Clone, Copy, Debug, PartialEq, Eq)]
pub enum Standing {
    Unset,
    Fitted,
    LeftOut,
}

/// A desk: its number of options, and the accepted calls in their sequence.
#[derive(Clone, Debug)]
pub struct Desk {
    options: u32,
    accepted: Vec<Call>,
}

impl Desk {
    /// A fresh desk with 0, or that for no options with refusal 2.
    pub fn fresh(options: u32) -> (u32, Desk) {
        let of = |options| Desk { options, accepted: Vec::new() };
        match options as usize <= OPTIONS {
            true => (0, of(options)),
            false => (2, of(0)),
        }
    }

    /// 0 where the call is accepted, and else the refusal's number.
    pub fn call(&mut self, call: Call) -> u32 {
        let number = self.refusal(call);
        if number == 0 {
            self.accepted.push(call);
        }
        number
    }

    /// The current order: how each option stands, option 1 first.
    pub fn order(&self) -> Vec<Standing> {
        self.order_after(&self.accepted)
    }

    /// The draft with this number, as the order was when it was last kept; none where it never was.
    pub fn draft(&self, draft: u32) -> Option<Vec<Standing>> {
        Some(self.order_after(before_keeping(&self.accepted, draft)?))
    }

    fn refusal(&self, call: Call) -> u32 {
        match call {
            Call::Set { option, .. } | Call::Clear { option } => match option {
                0 => 7,
                _ if option > self.options => 7,
                _ => 0,
            },
            Call::Keep { draft } | Call::Return { draft } if !DRAFTS.contains(&draft) => 14,
            Call::Return { draft } if before_keeping(&self.accepted, draft).is_none() => 15,
            Call::Keep { .. } | Call::Return { .. } => 0,
        }
    }

    fn order_after(&self, calls: &[Call]) -> Vec<Standing> {
        (1..=self.options).map(|option| standing(calls, option)).collect()
    }
}

/// The calls before the last one that kept this draft; none where there is none.
fn before_keeping(calls: &[Call], draft: u32) -> Option<&[Call]> {
    let kept = calls.iter().rposition(|call| *call == Call::Keep { draft })?;
    Some(&calls[..kept])
}

/// How an option stands after these calls: as the last set or clear since the last return says; without
/// one as that return gave it, which is how it stood when the draft was last kept; or unset.
fn standing(calls: &[Call], option: u32) -> Standing {
    let of_option = |call| match call {
        Call::Set { option: set, fitted: true } if set == option => Some(Standing::Fitted),
        Call::Set { option: set, fitted: false } if set == option => Some(Standing::LeftOut),
        Call::Clear { option: cleared } if cleared == option => Some(Standing::Unset),
        _ => None,
    };
    looking_back(calls).find_map(of_option).unwrap_or(Standing::Unset)
}

/// The calls that have a say, the last first: from a return it goes on before the draft was last kept.
fn looking_back(calls: &[Call]) -> impl Iterator<Item = Call> + '_ {
    let mut rest = calls;
    iter::from_fn(move || {
        let (&last, before) = rest.split_last()?;
        rest = match last {
            Call::Return { draft } => before_keeping(before, draft).unwrap_or(&[]),
            _ => before,
        };
        Some(last)
    })
}

#[cfg(test)]
mod tests {
    use super::Standing::{Fitted, LeftOut, Unset};
    use super::*;

    fn fitted(option: u32) -> Call {
        Call::Set { option, fitted: true }
    }

    fn left_out(option: u32) -> Call {
        Call::Set { option, fitted: false }
    }

    fn clear(option: u32) -> Call {
        Call::Clear { option }
    }

    fn keep(draft: u32) -> Call {
        Call::Keep { draft }
    }

    fn back(draft: u32) -> Call {
        Call::Return { draft }
    }

    /// A desk after these calls, and their numbers.
    fn after(options: u32, calls: &[Call]) -> (Desk, Vec<u32>) {
        let (fresh, mut desk) = Desk::fresh(options);
        assert_eq!(fresh, 0);
        let numbers = calls.iter().map(|&call| desk.call(call)).collect();
        (desk, numbers)
    }

    /// The order after calls that are all accepted.
    fn order(options: u32, calls: &[Call]) -> Vec<Standing> {
        let (desk, numbers) = after(options, calls);
        assert_eq!(numbers, vec![0; calls.len()]);
        desk.order()
    }

    #[test]
    fn a_fresh_desk_has_an_empty_order_and_no_draft() {
        for options in [0, 1, 63, 64] {
            let (number, desk) = Desk::fresh(options);
            assert_eq!((number, desk.order()), (0, vec![Unset; options as usize]));
            assert!((0..20).all(|draft| desk.draft(draft).is_none()));
        }
        for options in [65, 128, 256, u32::MAX] {
            let (number, mut desk) = Desk::fresh(options);
            assert_eq!((number, desk.order(), desk.call(fitted(1))), (2, Vec::new(), 7));
        }
    }

    #[test]
    fn the_last_set_or_clear_of_an_option_says_how_it_stands() {
        assert_eq!(order(2, &[fitted(1), left_out(2)]), [Fitted, LeftOut]);
        assert_eq!(order(2, &[fitted(1), left_out(1)]), [LeftOut, Unset]);
        assert_eq!(order(2, &[left_out(1), fitted(1), fitted(1)]), [Fitted, Unset]);
        assert_eq!(order(2, &[fitted(1), clear(1), clear(2)]), [Unset, Unset]);
        assert_eq!(order(2, &[clear(1), left_out(1)]), [LeftOut, Unset]);
    }

    #[test]
    fn a_return_gives_the_order_as_it_was_last_kept() {
        let tried = [fitted(1), keep(3), fitted(2), left_out(1), back(3)];
        assert_eq!(order(3, &tried), [Fitted, Unset, Unset]);
        let again = [&tried[..], &[left_out(3), keep(3), clear(1), back(3)]].concat();
        assert_eq!(order(3, &again), [Fitted, Unset, LeftOut]);
        let since = [&again[..], &[clear(1), fitted(2)]].concat();
        assert_eq!(order(3, &since), [Unset, Fitted, LeftOut]);
    }

    /// Draft 2 is kept after a return to draft 1, and draft 1 is then kept anew: draft 2 goes by the first.
    #[test]
    fn a_draft_goes_by_what_was_kept_before_it() {
        let calls = [fitted(1), keep(1), clear(1), back(1), fitted(2), keep(2)];
        let calls = [&calls[..], &[left_out(1), keep(1), clear(2), back(2)]].concat();
        assert_eq!(order(2, &calls), [Fitted, Fitted]);
        let (desk, _) = after(2, &calls);
        assert_eq!(desk.draft(1), Some(vec![LeftOut, Fitted]));
        assert_eq!(desk.draft(2), Some(vec![Fitted, Fitted]));
        assert_eq!(desk.draft(3), None);
    }

    #[test]
    fn an_empty_order_is_a_draft() {
        assert_eq!(order(1, &[keep(16), fitted(1), back(16)]), [Unset]);
        assert_eq!(order(0, &[keep(1), back(1)]), []);
    }

    #[test]
    fn refused_calls_have_no_say() {
        let calls = [fitted(1), fitted(0), keep(1), left_out(3), keep(0), back(2), back(17)];
        let (desk, numbers) = after(2, &calls);
        assert_eq!(numbers, [0, 7, 0, 7, 14, 15, 14]);
        assert_eq!((desk.order(), desk.draft(1)), (vec![Fitted, Unset], Some(vec![Fitted, Unset])));
        let (_, numbers) = after(2, &[clear(0), clear(2), clear(3), clear(u32::MAX)]);
        assert_eq!(numbers, [7, 0, 7, 7]);
        let (_, numbers) = after(2, &[keep(16), keep(17), keep(u32::MAX), back(u32::MAX), back(1)]);
        assert_eq!(numbers, [0, 14, 14, 14, 15]);
    }
}
