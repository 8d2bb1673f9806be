//! A joint book that is lent to the library: bytes full of rubbish between others that are not lent, and the
//! place for its length.

use crate::question::Joined;

/// Bytes before those that are lent, and bytes after them.
const BEFORE: usize = 5;
const AFTER: usize = 40;

/// All bytes, how many of them are lent, the place for the length, and the rubbish, another byte at each place.
struct Lent {
    bytes: Vec<u8>,
    room: usize,
    length: usize,
    rubbish: u64,
}

impl Lent {
    fn new(room: usize, rubbish: u64) -> Lent {
        let bytes = (0..BEFORE + room + AFTER).map(|i| rubbish_at(rubbish, i)).collect();
        Lent { bytes, room, length: rubbish as usize, rubbish }
    }

    fn lend(&mut self, call: &mut impl FnMut(&mut [u8], &mut usize) -> u32) -> u32 {
        call(&mut self.bytes[BEFORE..BEFORE + self.room], &mut self.length)
    }

    /// The book after a call that gave this number. It is an error if a byte changed that is not the book's, or
    /// if a refusal changed the length.
    fn joined(&self, number: u32) -> Result<Joined, String> {
        let written = match number {
            0 => self.length,
            _ if self.length == self.rubbish as usize => 0,
            _ => return Err(format!("refused {number}, and the length was written")),
        };
        if written > self.room {
            return Err(format!("a book of {written} bytes in {}", self.room));
        }
        let book = BEFORE..BEFORE + written;
        let is_changed = |i: &usize| self.bytes[*i] != rubbish_at(self.rubbish, *i);
        match (0..self.bytes.len()).filter(|i| !book.contains(i)).find(is_changed) {
            Some(i) if i < BEFORE => Err("a byte before the lent ones was written".to_string()),
            Some(i) => Err(format!("byte {} was written, and the book has {written}", i - BEFORE)),
            None if number == 0 => Ok(Ok(self.bytes[book].to_vec())),
            None => Ok(Err(number)),
        }
    }
}

fn rubbish_at(rubbish: u64, index: usize) -> u8 {
    rubbish as u8 ^ index as u8
}

/// Lends so many bytes to a call that writes a joint book at their start and its length at its place, and
/// takes the book out: over this rubbish, and then over its complement, so that every byte that is written
/// shows. It is also an error if the two answers differ.
pub fn lend(
    room: usize,
    rubbish: u64,
    mut call: impl FnMut(&mut [u8], &mut usize) -> u32,
) -> Result<Joined, String> {
    let mut joined = |rubbish| {
        let mut lent = Lent::new(room, rubbish);
        let number = lent.lend(&mut call);
        lent.joined(number)
    };
    let (over_one, over_other) = (joined(rubbish)?, joined(!rubbish)?);
    match over_one == over_other {
        true => Ok(over_one),
        false => Err("over other rubbish the answer is another".to_string()),
    }
}

#[cfg(test)]
mod tests {
    use super::super::tests::RUBBISH;
    use super::*;

    const BOOK: [u8; 3] = [7, 0, 0];

    /// Lends 9 bytes, writes the book, and then makes a change.
    fn changed(change: impl Fn(&mut [u8], &mut usize)) -> Result<Joined, String> {
        lend(9, RUBBISH, |bytes, length| {
            bytes[..BOOK.len()].copy_from_slice(&BOOK);
            *length = BOOK.len();
            change(bytes, length);
            0
        })
    }

    #[test]
    fn the_bytes_that_are_counted_are_the_book() {
        assert_eq!(changed(|_, _| ()), Ok(Ok(BOOK.to_vec())));
        assert_eq!(lend(9, RUBBISH, |_, _| 23), Ok(Err(23)));
        assert_eq!(lend(0, RUBBISH, |bytes, _| bytes.len() as u32 + 1), Ok(Err(1)));
    }

    /// Whatever is written at a place, the rubbish there or its complement is another.
    #[test]
    fn a_byte_that_is_not_the_books_is_named() {
        for byte in 0..=255 {
            let told = changed(|bytes, _| bytes[3] = byte).unwrap_err();
            assert_eq!(told, "byte 3 was written, and the book has 3");
            let told = lend(9, RUBBISH, |bytes, _| {
                bytes[8] = byte;
                22
            });
            assert_eq!(told.unwrap_err(), "byte 8 was written, and the book has 0");
        }
        let told = changed(|_, length| *length = 2).unwrap_err();
        assert_eq!(told, "byte 2 was written, and the book has 2");
    }

    #[test]
    fn a_byte_that_is_not_lent_is_named() {
        let told = |index: usize| {
            let mut lent = Lent::new(9, RUBBISH);
            lent.bytes[index] ^= 1;
            lent.joined(22).unwrap_err()
        };
        assert_eq!(told(BEFORE - 1), "a byte before the lent ones was written");
        assert_eq!(told(BEFORE + 9), "byte 9 was written, and the book has 0");
        assert_eq!(told(BEFORE + 9 + AFTER - 1), "byte 48 was written, and the book has 0");
    }

    #[test]
    fn a_length_is_that_of_the_book_and_a_refusal_leaves_it() {
        let told = changed(|_, length| *length = 10).unwrap_err();
        assert_eq!(told, "a book of 10 bytes in 9");
        let told = lend(9, RUBBISH, |_, length| {
            *length = 0;
            23
        });
        assert_eq!(told.unwrap_err(), "refused 23, and the length was written");
    }

    #[test]
    fn rubbish_that_plays_a_part_is_told() {
        let told = lend(9, RUBBISH, |bytes, length| {
            *length = 1;
            bytes[0] ^= 1;
            0
        });
        assert_eq!(told.unwrap_err(), "over other rubbish the answer is another");
    }
}
