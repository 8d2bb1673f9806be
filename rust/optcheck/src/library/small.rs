//! Small books, and tables full of rubbish, for the tests of the calls.

use crate::{Answer, Kind, Tables};

pub const RUBBISH: u64 = 0xa5a5_5a5a_a5a5_5a5a;

/// A book of n options: the fitted words of its rules, and then the left-out words.
pub fn book(n: u8, words: &[u64]) -> Vec<u8> {
    let rules = words.len() / 2;
    let mut book = vec![n, rules as u8, (rules >> 8) as u8];
    words.iter().for_each(|word| book.extend(word.to_le_bytes()));
    book
}

/// n 1, the rules "1" and "not 1". The outcome of an empty order is `cannot 0 1 1 1`, the derived
/// rule 0 0 and the record 0 0 1.
pub fn pair() -> Vec<u8> {
    book(1, &[1, 0, 0, 1])
}

/// The marked book Q.
pub fn q() -> Vec<u8> {
    book(3, &[3, 4, 0, 0, 1, 6])
}

/// Five tables of these lengths, full of rubbish.
pub fn rubbish(lengths: [usize; 5]) -> [Vec<u64>; 5] {
    lengths.map(|length| vec![RUBBISH; length])
}

pub fn lend(tables: &mut [Vec<u64>; 5]) -> Tables<'_> {
    let [pos, neg, decided, trues, redundant] = tables;
    Tables { pos, neg, decided, trues, redundant }
}

/// The answer with this number for each of the three counts.
pub fn answer(kind: Kind, number: u32, count: usize) -> Answer {
    Answer { kind, number, branchings: count as u32, derived: count, records: count }
}
