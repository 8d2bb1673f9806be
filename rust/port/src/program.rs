//! What the program does: standard input is the wanted, unwanted and standard words, then the book.

use crate::book::word;
use crate::outcome::Outcome;
use crate::request::{check, Order, Places, Request};

/// The program's places for derived rules.
pub const PROGRAM_PLACES: usize = 2048;
/// The program's places for records.
pub const PROGRAM_RECORD_PLACES: usize = 64;
/// The program's branching allowance.
pub const PROGRAM_ALLOWANCE: u32 = 1_000_000;

const ORDER: usize = 24;

/// The outcome for the bytes of standard input.
pub fn run_program(input: &[u8]) -> Outcome {
    if input.len() < ORDER {
        return Outcome::refused(1);
    }
    let (order, book) = input.split_at(ORDER);
    let [wanted, unwanted, standard] = [0, 1, 2].map(|number| word(order, number));
    check(&Request {
        book,
        order: Order { wanted, unwanted, standard },
        places: Places::equal(PROGRAM_PLACES, PROGRAM_RECORD_PLACES),
        allowance: PROGRAM_ALLOWANCE,
    })
}
