//! Reading a book: one byte n, two bytes m, m fitted words and m left-out words, low byte first.
//! Each fault has the number of its refusal.

use crate::words::{first, Rule};

/// A book has at most this many options.
pub const OPTIONS: usize = 64;
/// A book has at most this many rules.
pub const RULES: usize = 1024;

const HEAD: usize = 3;
const WORD: usize = 8;

/// A book that was read: all rules name options 1 to n, and none has an option in both words.
pub struct Book {
    pub n: u32,
    pub rules: Vec<Rule>,
}

/// The book of these bytes, or the number of the refusal, 1 to 6.
pub fn read(bytes: &[u8]) -> Result<Book, u32> {
    if bytes.len() < HEAD {
        return Err(1);
    }
    let n = usize::from(bytes[0]);
    let m = usize::from(bytes[1]) | usize::from(bytes[2]) << 8;
    if n > OPTIONS {
        return Err(2);
    }
    if m > RULES {
        return Err(3);
    }
    if bytes.len() != HEAD + 2 * WORD * m {
        return Err(4);
    }
    let n = n as u32;
    let rules = read_rules(&bytes[HEAD..], m);
    for rule in &rules {
        if rule.options() & !first(n) != 0 {
            return Err(5);
        }
        if rule.fitted & rule.left_out != 0 {
            return Err(6);
        }
    }
    Ok(Book { n, rules })
}

/// m rules from two parallel arrays of words.
fn read_rules(words: &[u8], m: usize) -> Vec<Rule> {
    (0..m).map(|i| Rule { fitted: word(words, i), left_out: word(words, m + i) }).collect()
}

/// The word with this number, low byte first.
pub fn word(bytes: &[u8], number: usize) -> u64 {
    let mut word = 0;
    for i in (0..WORD).rev() {
        word = word << 8 | u64::from(bytes[number * WORD + i]);
    }
    word
}

#[cfg(test)]
mod tests {
    use super::*;

    fn refusal(bytes: &[u8]) -> u32 {
        match read(bytes) {
            Ok(_) => 0,
            Err(number) => number,
        }
    }

    fn bytes(n: u8, rules: &[(u64, u64)]) -> Vec<u8> {
        let mut out = vec![n, rules.len() as u8, (rules.len() >> 8) as u8];
        rules.iter().for_each(|r| out.extend(r.0.to_le_bytes()));
        rules.iter().for_each(|r| out.extend(r.1.to_le_bytes()));
        out
    }

    #[test]
    fn the_table_of_refusals() {
        assert_eq!(refusal(&[2, 0]), 1);
        assert_eq!(refusal(&[0x41, 0, 0]), 2);
        assert_eq!(refusal(&[1, 1, 4]), 3);
        assert_eq!(refusal(&[1, 1, 0]), 4);
        assert_eq!(refusal(&bytes(1, &[(2, 0)])), 5);
        assert_eq!(refusal(&bytes(1, &[(1, 1)])), 6);
        assert_eq!(refusal(&[0, 0, 0]), 0);
    }

    #[test]
    fn the_lowest_faulty_rule_decides_and_five_comes_before_six() {
        assert_eq!(refusal(&bytes(1, &[(1, 1), (2, 0)])), 6);
        assert_eq!(refusal(&bytes(1, &[(3, 1)])), 5);
    }

    #[test]
    fn the_limits_pass() {
        assert_eq!(refusal(&bytes(64, &vec![(1, 1 << 63); 1024])), 0);
        assert_eq!(refusal(&bytes(64, &vec![(1, 0); 1025])), 3);
    }

    #[test]
    fn words_are_read_low_byte_first_from_parallel_arrays() {
        let book = read(&bytes(64, &[(0x0102, 4), (1 << 63, 8)])).ok().unwrap();
        assert_eq!(book.rules[0], Rule { fitted: 0x0102, left_out: 4 });
        assert_eq!(book.rules[1], Rule { fitted: 1 << 63, left_out: 8 });
    }
}
