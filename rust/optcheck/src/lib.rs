//! A safe wrapper over the proved checker's static library (include/optcheck.h). `check`, `morning`,
//! `undecided`, `sites`, `Terminal`, `page`, `Desk`, `join`, `turns` and `cheapest` are there with the feature
//! `proved`; without it nothing is linked.

mod answer;
mod cheapest;
mod desk;
#[cfg(feature = "proved")]
mod library;
mod order;
mod page;
mod tried;
mod turns;

pub use answer::{Answer, Kind};
pub use cheapest::{Quote, PRICE, REBATE};
pub use desk::{DeskWords, DRAFTS};
#[cfg(feature = "proved")]
pub use library::{cheapest, cheapest_words};
#[cfg(feature = "proved")]
pub use library::{check, check_word, morning, morning_words, undecided, undecided_words};
#[cfg(feature = "proved")]
pub use library::{desk_clear_words, desk_fresh_words, desk_keep_words, desk_return_words};
#[cfg(feature = "proved")]
pub use library::{desk_set_words, Desk};
#[cfg(feature = "proved")]
pub use library::{join, join_bytes};
#[cfg(feature = "proved")]
pub use library::{page, page_bytes};
#[cfg(feature = "proved")]
pub use library::{site_words, sites, terminal_words, Site, Terminal};
#[cfg(feature = "proved")]
pub use library::{turns, turns_words};
pub use order::Order;
pub use page::{Page, PAGE_BYTES, PAGE_LINE};
use std::ops::Range;
pub use tried::{Tried, Verdict};
pub use turns::{Response, Turns};

/// The bytes of the longest book, which has 1,024 rules.
pub const BOOK_BYTES: usize = 3 + 16 * 1024;

/// The lent tables: two for derived rules, three for records. A bad length is a refusal.
pub struct Tables<'a> {
    pub pos: &'a mut [u64],
    pub neg: &'a mut [u64],
    pub decided: &'a mut [u64],
    pub trues: &'a mut [u64],
    pub redundant: &'a mut [u64],
}

/// The part of a table that belongs to a morning's order: the places of the order with this index,
/// counted from 0, in a table of this length, which is cut into as many equal parts as there are
/// orders. What remains at the end belongs to none. There must be an order, and the index must be
/// below their number.
pub fn part(length: usize, orders: usize, index: usize) -> Range<usize> {
    let places = length / orders;
    index * places..(index + 1) * places
}

#[cfg(test)]
mod tests {
    use super::*;

    #[test]
    fn the_longest_book_has_the_headers_length() {
        let header = include_str!("../include/optcheck.h");
        assert!(header.contains(&format!("#define OPTCHECK_BOOK_BYTES {BOOK_BYTES}u ")));
    }

    #[test]
    fn parts_stand_one_after_the_other_and_a_remainder_belongs_to_none() {
        assert_eq!([part(11, 2, 0), part(11, 2, 1)], [0..5, 5..10]);
        assert_eq!([part(130, 2, 0), part(130, 2, 1)], [0..65, 65..130]);
        assert_eq!([part(5, 3, 0), part(5, 3, 1), part(5, 3, 2)], [0..1, 1..2, 2..3]);
        assert_eq!(part(2048, 1, 0), 0..2048);
        assert!(part(15, 16, 15).is_empty());
    }
}
