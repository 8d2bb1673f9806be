//! The bytes that the program reads: the wanted, unwanted and standard words, then the book. The book
//! is one byte for the options, two bytes for the rules, the fitted words and the left-out words.
//! Numbers stand low byte first.

use crate::{first, Book, Order, Rule, OPTIONS, RULES};

const ORDER: usize = 24;
const HEAD: usize = 3;
const WORD: usize = 8;

/// The bytes of a book.
pub fn book_bytes(book: &Book) -> Vec<u8> {
    let rules = book.rules.len();
    let mut bytes = vec![book.options as u8, rules as u8, (rules >> 8) as u8];
    book.rules.iter().for_each(|rule| bytes.extend(rule.fitted.to_le_bytes()));
    book.rules.iter().for_each(|rule| bytes.extend(rule.left_out.to_le_bytes()));
    bytes
}

/// The bytes of standard input: the order, then the bytes of a book.
pub fn input_bytes(order: Order, book: &[u8]) -> Vec<u8> {
    let mut bytes = order.wanted.to_le_bytes().to_vec();
    bytes.extend(order.unwanted.to_le_bytes());
    bytes.extend(order.standard.to_le_bytes());
    bytes.extend(book);
    bytes
}

/// The order and the book of standard input, or what is wrong with it, in words.
pub fn read_input(input: &[u8]) -> Result<(Order, Book), String> {
    if input.len() < ORDER + HEAD {
        let least = ORDER + HEAD;
        return Err(format!("an order and a book take {least} bytes or more, not {}", input.len()));
    }
    let (order, book) = input.split_at(ORDER);
    let [wanted, unwanted, standard] = [0, 1, 2].map(|number| word(order, number));
    let book = read_book(book)?;
    if (wanted | unwanted) & !first(book.options) != 0 {
        return Err(format!("a wanted or an unwanted option is above {}", book.options));
    }
    if wanted & unwanted != 0 {
        return Err("the order has an option that is both wanted and unwanted".to_string());
    }
    if standard & !first(book.options) != 0 {
        return Err(format!("a standard option is above {}", book.options));
    }
    Ok((Order { wanted, unwanted, standard }, book))
}

/// The book of these bytes, of which there are 3 at least, or what is wrong with them, in words.
pub(crate) fn read_book(bytes: &[u8]) -> Result<Book, String> {
    let options = usize::from(bytes[0]);
    let count = usize::from(bytes[1]) + 256 * usize::from(bytes[2]);
    if options > OPTIONS {
        return Err(format!("{options} options are more than {OPTIONS}"));
    }
    if count > RULES {
        return Err(format!("{count} rules are more than {RULES}"));
    }
    let due = HEAD + 2 * WORD * count;
    if bytes.len() != due {
        return Err(format!("a book of {count} rules takes {due} bytes, not {}", bytes.len()));
    }
    let words = &bytes[HEAD..];
    let rules: Vec<Rule> = (0..count)
        .map(|i| Rule { fitted: word(words, i), left_out: word(words, count + i) })
        .collect();
    match rules.iter().enumerate().find_map(|(i, &rule)| fault(i, rule, options)) {
        Some(fault) => Err(fault),
        None => Ok(Book { options, rules }),
    }
}

/// What is wrong with a rule.
fn fault(index: usize, rule: Rule, options: usize) -> Option<String> {
    let number = index + 1;
    if (rule.fitted | rule.left_out) & !first(options) != 0 {
        return Some(format!("rule {number} names an option above {options}"));
    }
    if rule.fitted & rule.left_out != 0 {
        return Some(format!("rule {number} has one option in both words"));
    }
    None
}

fn word(bytes: &[u8], number: usize) -> u64 {
    let start = number * WORD;
    bytes[start..start + WORD].iter().rev().fold(0, |word, &byte| word << 8 | u64::from(byte))
}

#[cfg(test)]
mod tests {
    use super::*;

    fn rule(fitted: u64, left_out: u64) -> Rule {
        Rule { fitted, left_out }
    }

    #[test]
    fn an_input_reads_back_as_it_was() {
        let book = Book { options: 64, rules: vec![rule(0x0102, 4), rule(1 << 63, 0), rule(0, 0)] };
        let order = Order { wanted: 1 << 62, unwanted: 3, standard: 1 << 63 | 2 };
        let input = input_bytes(order, &book_bytes(&book));
        assert_eq!(input.len(), 24 + 3 + 16 * 3);
        assert_eq!(read_input(&input), Ok((order, book)));
    }

    #[test]
    fn each_fault_is_named() {
        let fault = |order, book: &[u8]| read_input(&input_bytes(order, book)).unwrap_err();
        let one = |rules| book_bytes(&Book { options: 1, rules });
        let none = Order::default();
        assert!(fault(none, &[0, 0]).contains("27 bytes or more, not 26"));
        assert!(fault(none, &[65, 0, 0]).contains("65 options"));
        assert!(fault(none, &[1, 1, 4]).contains("1025 rules"));
        assert!(fault(none, &[1, 1, 0]).contains("takes 19 bytes, not 3"));
        assert!(fault(none, &one(vec![rule(1, 0), rule(2, 0)])).contains("rule 2 names"));
        assert!(fault(none, &one(vec![rule(1, 1)])).contains("rule 1 has one option in both"));
        let of =
            |wanted, unwanted, standard| fault(Order { wanted, unwanted, standard }, &one(vec![]));
        assert_eq!(of(2, 0, 2), "a wanted or an unwanted option is above 1");
        assert!(of(1, 1, 2).contains("both wanted"));
        assert_eq!(of(0, 1, 3), "a standard option is above 1");
    }
}
