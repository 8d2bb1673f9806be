//! Books whose bytes are refused.

use crate::random::Random;
use optbook::bytes::book_bytes;
use optbook::{Book, OPTIONS};

/// The bytes of a book, so changed that they are refused with this number, 1 to 6. The book has a
/// rule, an option, and not all options.
pub fn refused_bytes(random: &mut Random, book: &Book, number: usize) -> Vec<u8> {
    let mut bytes = book_bytes(book);
    let rules = book.rules.len();
    let fitted = 3 + 8 * random.below(rules);
    let left_out = fitted + 8 * rules;
    match number {
        1 => bytes.truncate(random.below(3)),
        2 => bytes[0] = random.between(OPTIONS + 1, 255) as u8,
        3 => {
            let many = random.between(optbook::RULES + 1, 65_535) as u16;
            bytes[1..3].copy_from_slice(&many.to_le_bytes());
        }
        4 => bytes.truncate(random.between(3, bytes.len() - 1)),
        5 => bytes[fitted + book.options / 8] |= 1 << (book.options % 8),
        _ => {
            bytes[fitted] |= 1;
            bytes[left_out] |= 1;
        }
    }
    bytes
}

#[cfg(test)]
mod tests {
    use super::*;
    use crate::kinds::{wishes_and_book, Kind};
    use crate::question::Check;
    use optbook::bytes::input_bytes;
    use port::Ending;

    #[test]
    fn each_refused_book_is_refused_with_its_number() {
        let mut random = Random::new(1);
        for number in 1..=6 {
            for _ in 0..50 {
                let (order, book) = wishes_and_book(&mut random, Kind::AboveN);
                let input = input_bytes(order, &refused_bytes(&mut random, &book, number));
                let ending = Check::of_program(input).port_outcome().ending;
                assert_eq!(ending, Ending::Refused(number as u32));
            }
        }
    }
}
