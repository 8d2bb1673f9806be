//! A check of one order.

use super::of_port;
use crate::fields::{numbers, order, places, values};
use crate::hex::{bytes, hex};
use optbook::bytes::input_bytes;
use optbook::Order;
use port::{Outcome, Places, Request, PROGRAM_ALLOWANCE, PROGRAM_PLACES, PROGRAM_RECORD_PLACES};

/// The bytes of an order on standard input.
pub const ORDER: usize = 24;

/// A check: the bytes of standard input, the lengths of the lent tables and the allowance.
#[derive(Clone, Debug)]
pub struct Check {
    pub input: Vec<u8>,
    pub places: Places,
    pub allowance: u32,
}

impl Check {
    /// A check with the program's own places and allowance.
    pub fn of_program(input: Vec<u8>) -> Check {
        let places = Places::equal(PROGRAM_PLACES, PROGRAM_RECORD_PLACES);
        Check { input, places, allowance: PROGRAM_ALLOWANCE }
    }

    /// The check of these fields of a case.
    pub fn read(fields: &[&str]) -> Result<Check, String> {
        let [book, allowance, tables, words] =
            values(["book", "allowance", "tables", "order"], fields)?;
        let [allowance] = numbers(allowance)?;
        let input = input_bytes(order(words)?, &bytes(book)?);
        Ok(Check { input, places: places(tables)?, allowance })
    }

    /// The places and the allowance are the program's own.
    pub fn is_of_program(&self) -> bool {
        self.allowance == PROGRAM_ALLOWANCE
            && self.places.derived == [PROGRAM_PLACES; 2]
            && self.places.records == [PROGRAM_RECORD_PLACES; 3]
    }

    /// The same input with other limits.
    pub fn with_limits(&self, places: Places, allowance: u32) -> Check {
        Check { places, allowance, input: self.input.clone() }
    }

    /// The order and the book; none where the order is cut short.
    pub fn parts(&self) -> Option<(Order, &[u8])> {
        order_and_book(&self.input)
    }

    /// The check in words, its bytes in hexadecimal.
    pub fn told(&self) -> String {
        let Check { input, places: Places { derived, records }, allowance } = self;
        format!(
            "allowance {allowance}, derived tables {derived:?}, record tables {records:?}\n\
             standard input in hexadecimal:\n{}",
            hex(input)
        )
    }

    /// The outcome of the port.
    pub fn port_outcome(&self) -> Outcome {
        let Some((order, book)) = self.parts() else {
            return Outcome::refused(1);
        };
        let (order, places, allowance) = (of_port(order), self.places, self.allowance);
        port::check(&Request { book, order, places, allowance })
    }
}

/// The order and the book of standard input; none where the order is cut short.
pub fn order_and_book(input: &[u8]) -> Option<(Order, &[u8])> {
    let (order, book) = input.split_at_checked(ORDER)?;
    let [wanted, unwanted, standard] = [0, 1, 2].map(|number| word(order, number));
    Some((Order { wanted, unwanted, standard }, book))
}

/// The word with this number.
fn word(bytes: &[u8], number: usize) -> u64 {
    const WORD: usize = 8;
    let word = &bytes[number * WORD..][..WORD];
    u64::from_le_bytes(word.try_into().expect("a word has eight bytes"))
}

#[cfg(test)]
mod tests {
    use super::*;

    #[test]
    fn the_order_stands_before_the_book() {
        let mut input = vec![0; ORDER];
        (input[0], input[9], input[ORDER - 1]) = (5, 2, 1);
        input.extend([7, 0, 0]);
        let check = Check::of_program(input);
        let order = Order { wanted: 5, unwanted: 2 << 8, standard: 1 << 56 };
        assert_eq!(check.parts(), Some((order, &[7, 0, 0][..])));
        assert_eq!(Check::of_program(vec![0; ORDER - 1]).parts(), None);
    }

    #[test]
    fn a_check_is_read_from_its_fields() {
        let lines = ["book 070000", "allowance 9", "tables 1 2 3 4 5", "order 6 7 8"];
        let check = Check::read(&lines).unwrap();
        let order = Order { wanted: 6, unwanted: 7, standard: 8 };
        assert_eq!(check.parts(), Some((order, &[7, 0, 0][..])));
        assert_eq!((check.places.derived, check.places.records), ([1, 2], [3, 4, 5]));
        assert_eq!(check.allowance, 9);
    }
}
