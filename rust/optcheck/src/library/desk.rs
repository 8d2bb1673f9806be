//! A desk, which has an order and drafts of it to come back to: `optcheck_desk_fresh`,
//! `optcheck_desk_set`, `optcheck_desk_clear`, `optcheck_desk_keep` and `optcheck_desk_return`.

use crate::{DeskWords, Order, DRAFTS};

extern "C" {
    fn optcheck_desk_fresh(options: u32, desk: *mut DeskWords) -> u32;
    fn optcheck_desk_set(desk: *mut DeskWords, option: u32, fitted: bool) -> u32;
    fn optcheck_desk_clear(desk: *mut DeskWords, option: u32) -> u32;
    fn optcheck_desk_keep(desk: *mut DeskWords, draft: u32) -> u32;
    fn optcheck_desk_return(desk: *mut DeskWords, draft: u32) -> u32;
}

/// A desk: the current order of so many options, and drafts 1 to 16 of it. A refused call, which gives
/// the refusal's number, alters neither.
#[derive(Clone, Debug, PartialEq, Eq)]
pub struct Desk {
    words: DeskWords,
}

impl Desk {
    /// A fresh desk for so many options: an empty order, and no draft kept. More than 64 are refusal 2.
    pub fn fresh(options: u32) -> Result<Desk, u32> {
        let mut words = DeskWords::default();
        done(desk_fresh_words(options, &mut words)).map(|()| Desk { words })
    }

    /// A desk of these words, whatever they are.
    pub fn of_words(words: DeskWords) -> Desk {
        Desk { words }
    }

    pub fn words(&self) -> &DeskWords {
        &self.words
    }

    /// Sets a wish, to have the option fitted or left out; one that was set the other way is replaced. An
    /// option that is not one of the desk's is refusal 7.
    pub fn set(&mut self, option: u32, fitted: bool) -> Result<(), u32> {
        done(desk_set_words(&mut self.words, option, fitted))
    }

    /// Clears the wish for an option; where there is none, nothing changes. An option that is not one of
    /// the desk's is refusal 7.
    pub fn clear(&mut self, option: u32) -> Result<(), u32> {
        done(desk_clear_words(&mut self.words, option))
    }

    /// Keeps the order as the draft with this number, in place of what was kept under it. A number that is
    /// not 1 to 16 is refusal 14.
    pub fn keep(&mut self, draft: u32) -> Result<(), u32> {
        done(desk_keep_words(&mut self.words, draft))
    }

    /// Returns to a draft: the order is the one that was last kept under this number. A number that is not
    /// 1 to 16 is refusal 14, and one that was never kept refusal 15.
    pub fn return_to(&mut self, draft: u32) -> Result<(), u32> {
        done(desk_return_words(&mut self.words, draft))
    }

    /// The number of options.
    pub fn options(&self) -> u32 {
        self.words.options
    }

    /// The current order, which has no standard options.
    pub fn order(&self) -> Order {
        let DeskWords { wanted, unwanted, .. } = self.words;
        Order { wanted, unwanted, standard: 0 }
    }

    /// The kept drafts, each with its number, lowest first.
    pub fn drafts(&self) -> Vec<(u32, Order)> {
        let DeskWords { kept, draft_wanted, draft_unwanted, .. } = self.words;
        let is_kept = |place: &usize| kept & (1 << place) != 0;
        let draft = |place: usize| {
            let (wanted, unwanted) = (draft_wanted[place], draft_unwanted[place]);
            (place as u32 + 1, Order { wanted, unwanted, standard: 0 })
        };
        (0..DRAFTS).filter(is_kept).map(draft).collect()
    }
}

/// What a call's number says.
fn done(number: u32) -> Result<(), u32> {
    match number {
        0 => Ok(()),
        refusal => Err(refusal),
    }
}

/// Writes a fresh desk as words, whatever stood there: 0, or 2 and the fresh desk for no options.
pub fn desk_fresh_words(options: u32, desk: &mut DeskWords) -> u32 {
    // Safety: the desk is borrowed for the call, and has the layout of the header's struct. So below.
    unsafe { optcheck_desk_fresh(options, desk) }
}

/// Sets a wish on a desk of any words: 0 or 7.
pub fn desk_set_words(desk: &mut DeskWords, option: u32, fitted: bool) -> u32 {
    unsafe { optcheck_desk_set(desk, option, fitted) }
}

/// Clears a wish on a desk of any words: 0 or 7.
pub fn desk_clear_words(desk: &mut DeskWords, option: u32) -> u32 {
    unsafe { optcheck_desk_clear(desk, option) }
}

/// Keeps the order of a desk of any words as a draft: 0 or 14.
pub fn desk_keep_words(desk: &mut DeskWords, draft: u32) -> u32 {
    unsafe { optcheck_desk_keep(desk, draft) }
}

/// Returns to a draft of a desk of any words: 0, 14 or 15.
pub fn desk_return_words(desk: &mut DeskWords, draft: u32) -> u32 {
    unsafe { optcheck_desk_return(desk, draft) }
}

#[cfg(test)]
mod tests {
    use super::super::small::{lend, pair, rubbish, RUBBISH};
    use super::*;
    use crate::{check, Kind};

    fn order(wanted: u64, unwanted: u64) -> Order {
        Order { wanted, unwanted, standard: 0 }
    }

    /// Words that no run of calls leads to, each another one.
    fn at_will(options: u32) -> DeskWords {
        let mut next = RUBBISH;
        let mut word = || {
            next = next.rotate_left(7) ^ 0x1234_5678;
            next
        };
        DeskWords {
            options,
            wanted: word(),
            unwanted: word(),
            kept: word(),
            draft_wanted: [(); DRAFTS].map(|()| word()),
            draft_unwanted: [(); DRAFTS].map(|()| word()),
        }
    }

    #[test]
    fn a_fresh_desk_has_no_wish_and_no_draft() {
        for options in [0, 1, 63, 64] {
            let desk = Desk::fresh(options).unwrap();
            assert_eq!((desk.options(), desk.order()), (options, order(0, 0)));
            assert_eq!(desk.drafts(), []);
            assert_eq!(*desk.words(), DeskWords { options, ..DeskWords::default() });
        }
        for options in [65, 128, 256, 1 << 16, u32::MAX] {
            assert_eq!(Desk::fresh(options), Err(2));
        }
    }

    #[test]
    fn the_whole_desk_is_written_whatever_stood_there() {
        for (options, number, due) in [(64, 0, 64), (0, 0, 0), (65, 2, 0), (u32::MAX, 2, 0)] {
            let mut words = at_will(77);
            assert_eq!(desk_fresh_words(options, &mut words), number);
            assert_eq!(words, DeskWords { options: due, ..DeskWords::default() });
        }
    }

    #[test]
    fn a_wish_is_set_replaced_and_cleared() {
        let mut desk = Desk::fresh(64).unwrap();
        assert_eq!([desk.set(1, true), desk.set(64, false)], [Ok(()); 2]);
        assert_eq!(desk.order(), order(1, 1 << 63));
        assert_eq!([desk.set(1, false), desk.set(64, true)], [Ok(()); 2]);
        assert_eq!(desk.order(), order(1 << 63, 1));
        assert_eq!([desk.clear(64), desk.clear(7)], [Ok(()); 2]);
        assert_eq!(desk.order(), order(0, 1));
    }

    #[test]
    fn an_option_outside_the_desks_is_refused_and_alters_nothing() {
        let mut desk = Desk::fresh(5).unwrap();
        desk.set(5, true).unwrap();
        let before = desk.clone();
        for option in [0, 6, 64, 65, 69, 256 + 5, (1 << 16) + 5, u32::MAX] {
            let calls = [desk.set(option, true), desk.set(option, false), desk.clear(option)];
            assert_eq!((calls, &desk), ([Err(7); 3], &before), "{option}");
        }
        assert_eq!(Desk::fresh(0).unwrap().set(1, true), Err(7));
    }

    #[test]
    fn a_draft_is_kept_returned_to_and_replaced() {
        let mut desk = Desk::fresh(3).unwrap();
        desk.set(1, true).unwrap();
        desk.keep(3).unwrap();
        desk.set(2, false).unwrap();
        desk.keep(16).unwrap();
        desk.clear(1).unwrap();
        desk.return_to(3).unwrap();
        assert_eq!(desk.order(), order(1, 0));
        assert_eq!(desk.drafts(), [(3, order(1, 0)), (16, order(1, 2))]);
        desk.return_to(16).unwrap();
        desk.keep(3).unwrap();
        desk.clear(2).unwrap();
        desk.return_to(3).unwrap();
        assert_eq!(desk.order(), order(1, 2));
        assert_eq!(desk.drafts(), [(3, order(1, 2)), (16, order(1, 2))]);
    }

    #[test]
    fn a_drafts_number_is_judged_before_it_is_looked_for() {
        let mut desk = Desk::fresh(3).unwrap();
        desk.set(1, true).unwrap();
        desk.keep(1).unwrap();
        desk.set(2, true).unwrap();
        let before = desk.clone();
        for draft in [0, 17, 32 + 1, 64 + 1, 256 + 1, (1 << 16) + 1, u32::MAX] {
            assert_eq!([desk.keep(draft), desk.return_to(draft)], [Err(14); 2], "{draft}");
        }
        assert_eq!([desk.return_to(2), desk.return_to(16)], [Err(15); 2]);
        assert_eq!(desk, before);
    }

    /// Each call on words at will: what it says of the option or the draft changes, and nothing else.
    #[test]
    fn stray_words_stay() {
        for options in [0, 5, 64, 65, u32::MAX] {
            let words = at_will(options);
            let mut after = words;
            assert_eq!(desk_keep_words(&mut after, 9), 0);
            let mut due = DeskWords { kept: words.kept | 1 << 8, ..words };
            (due.draft_wanted[8], due.draft_unwanted[8]) = (words.wanted, words.unwanted);
            assert_eq!(after, due);

            let mut after = words;
            let number = if words.kept & 2 == 0 { 15 } else { 0 };
            assert_eq!(desk_return_words(&mut after, 2), number);
            let mut due = words;
            if number == 0 {
                (due.wanted, due.unwanted) = (words.draft_wanted[1], words.draft_unwanted[1]);
            }
            assert_eq!(after, due);

            for option in [1, 5, 6, 64, 65, u32::MAX] {
                let mut after = words;
                let is_one = option <= options.min(64);
                let number = if is_one { 0 } else { 7 };
                assert_eq!(desk_set_words(&mut after, option, false), number);
                let bit = if is_one { 1 << (option - 1) } else { 0 };
                let (wanted, unwanted) = (words.wanted & !bit, words.unwanted | bit);
                assert_eq!(after, DeskWords { wanted, unwanted, ..words });
                assert_eq!(desk_clear_words(&mut after, option), number);
                assert_eq!(after, DeskWords { wanted, unwanted: words.unwanted & !bit, ..words });
            }
        }
    }

    #[test]
    fn a_desk_of_words_is_as_they_are() {
        let words = at_will(3);
        let desk = Desk::of_words(words);
        assert_eq!((desk.words(), desk.options()), (&words, 3));
        assert_eq!(desk.order(), order(words.wanted, words.unwanted));
        let kept = (words.kept & 0xffff).count_ones() as usize;
        assert_eq!(desk.drafts().len(), kept);
    }

    #[test]
    fn the_order_of_a_desk_can_be_checked() {
        let mut desk = Desk::fresh(1).unwrap();
        desk.set(1, true).unwrap();
        desk.set(1, false).unwrap();
        let mut tables = rubbish([4, 4, 64, 64, 64]);
        let answer = check(&pair(), desk.order(), 9, lend(&mut tables));
        assert_eq!(answer.kind, Kind::Cannot);
    }
}
