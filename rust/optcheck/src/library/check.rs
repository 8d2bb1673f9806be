//! One order: `optcheck_check`.

use crate::{Answer, Order, Tables};

extern "C" {
    fn optcheck_check(
        book: *const u8,
        book_len: usize,
        wanted: u64,
        unwanted: u64,
        standard: u64,
        allowance: u32,
        pos: *mut u64,
        pos_len: usize,
        neg: *mut u64,
        neg_len: usize,
        decided: *mut u64,
        decided_len: usize,
        trues: *mut u64,
        trues_len: usize,
        redundant: *mut u64,
        redundant_len: usize,
    ) -> u64;
}

/// Checks an order against a book with at most this many branchings.
pub fn check(book: &[u8], order: Order, allowance: u32, tables: Tables) -> Answer {
    Answer::of_word(check_word(book, order, allowance, tables))
}

/// The same check, with the answer as its word.
pub fn check_word(book: &[u8], order: Order, allowance: u32, tables: Tables) -> u64 {
    let Order { wanted, unwanted, standard } = order;
    let Tables { pos, neg, decided, trues, redundant } = tables;
    // Safety: each pointer goes with the length of the slice that it is taken from, the slices are
    // borrowed for the call, and no two of them overlap.
    unsafe {
        optcheck_check(
            book.as_ptr(),
            book.len(),
            wanted,
            unwanted,
            standard,
            allowance,
            pos.as_mut_ptr(),
            pos.len(),
            neg.as_mut_ptr(),
            neg.len(),
            decided.as_mut_ptr(),
            decided.len(),
            trues.as_mut_ptr(),
            trues.len(),
            redundant.as_mut_ptr(),
            redundant.len(),
        )
    }
}
