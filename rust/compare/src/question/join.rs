//! Two books that are joined into one.

use crate::fields::{numbers, values};
use crate::hex::{bytes, hex};

/// Two books, the pairs of options that are the same thing, and the bytes that there is room for.
#[derive(Clone, Debug)]
pub struct Join {
    pub first: Vec<u8>,
    pub second: Vec<u8>,
    pub pairs: Vec<u8>,
    pub room: usize,
}

/// The bytes of the joint book, or the number of the refusal.
pub type Joined = Result<Vec<u8>, u32>;

impl Join {
    /// The books, pairs and room of these fields of a case.
    pub fn read(fields: &[&str]) -> Result<Join, String> {
        let [first, second, pairs, room] = values(["first", "second", "pairs", "room"], fields)?;
        let [room] = numbers(room)?;
        Ok(Join { first: bytes(first)?, second: bytes(second)?, pairs: bytes(pairs)?, room })
    }

    /// What the port makes of them.
    pub fn port_joined(&self) -> Joined {
        port::join(&self.first, &self.second, &self.pairs, self.room)
    }

    /// The question as the lines of a case.
    pub fn told(&self) -> String {
        let [first, second, pairs] = [&self.first, &self.second, &self.pairs].map(|part| hex(part));
        format!("join\nfirst {first}\nsecond {second}\npairs {pairs}\nroom {}", self.room)
    }
}

/// The joint book or the refusal as it is printed.
pub fn joined_text(joined: &Joined) -> String {
    match joined {
        Ok(book) => format!("book {}\n", hex(book)),
        Err(number) => format!("refused {number}\n"),
    }
}

#[cfg(test)]
mod tests {
    use super::*;
    use crate::question::Question;

    const LINES: [&str; 5] = ["join", "first 020000", "second 030000", "pairs 02010103", "room 3"];

    fn read(lines: &[&str]) -> Result<Join, String> {
        match Question::read(lines)? {
            Question::Join(join) => Ok(join),
            question => panic!("{question:?} is no join"),
        }
    }

    #[test]
    fn a_join_is_read_from_its_fields_and_told_with_them() {
        let join = read(&LINES).unwrap();
        assert_eq!([&join.first, &join.second], [&[2, 0, 0], &[3, 0, 0]]);
        assert_eq!((join.pairs.as_slice(), join.room), (&[2, 1, 1, 3][..], 3));
        assert_eq!(join.told(), LINES.join("\n"));
        let empty = read(&["join", "first ", "second ", "pairs ", "room 0"]).unwrap();
        assert!(empty.first.is_empty() && empty.second.is_empty() && empty.pairs.is_empty());
        let due = "the lines first, second, pairs, room are due, not 3 lines";
        assert_eq!(read(&LINES[..4]).unwrap_err(), due);
        assert!(read(&["join", "first 0", "second ", "pairs ", "room 0"]).is_err());
    }

    #[test]
    fn the_joint_book_or_its_refusal_is_one_line() {
        let join = read(&LINES).unwrap();
        assert_eq!(joined_text(&join.port_joined()), "book 030000\n");
        assert_eq!(joined_text(&Join { room: 2, ..join }.port_joined()), "refused 23\n");
    }
}
