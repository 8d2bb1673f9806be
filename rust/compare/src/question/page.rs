//! The page of a check of one order.

use super::check::{order_and_book, Check};
use crate::fields::{numbers, order, values};
use crate::hex::{bytes, hex};
use optbook::bytes::input_bytes;
use optbook::Order;
use port::PROGRAM_ALLOWANCE;

/// A page: the bytes of standard input, and the allowance.
#[derive(Clone, Debug)]
pub struct Page {
    pub input: Vec<u8>,
    pub allowance: u32,
}

impl Page {
    /// A page with the program's own allowance.
    pub fn of_program(input: Vec<u8>) -> Page {
        Page { input, allowance: PROGRAM_ALLOWANCE }
    }

    /// The page of these fields of a case.
    pub fn read(fields: &[&str]) -> Result<Page, String> {
        let [book, allowance, words] = values(["book", "allowance", "order"], fields)?;
        let [allowance] = numbers(allowance)?;
        Ok(Page { input: input_bytes(order(words)?, &bytes(book)?), allowance })
    }

    /// The allowance is the program's own.
    pub fn is_of_program(&self) -> bool {
        self.allowance == PROGRAM_ALLOWANCE
    }

    /// The order and the book; none where the order is cut short.
    pub fn parts(&self) -> Option<(Order, &[u8])> {
        order_and_book(&self.input)
    }

    /// The check whose outcome the page has: the places are the program's own.
    pub fn check(&self) -> Check {
        Check { allowance: self.allowance, ..Check::of_program(self.input.clone()) }
    }

    /// The port's page.
    pub fn port_page(&self) -> String {
        port::page(&self.check().port_outcome())
    }

    /// The question as the lines of a case.
    pub fn told(&self) -> String {
        match self.parts() {
            Some((order, book)) if !self.is_of_program() => {
                let [wanted, unwanted, standard] = order.words();
                let (book, allowance) = (hex(book), self.allowance);
                let order = format!("{wanted} {unwanted} {standard}");
                format!("filed\nbook {book}\nallowance {allowance}\norder {order}")
            }
            _ => format!("page {}", hex(&self.input)),
        }
    }
}

#[cfg(test)]
mod tests {
    use super::*;
    use crate::question::Question;

    fn read(lines: &[&str]) -> Result<Page, String> {
        match Question::read(lines)? {
            Question::Page(page) => Ok(page),
            question => panic!("{question:?} is no page"),
        }
    }

    #[test]
    fn a_page_of_standard_input_has_the_programs_allowance() {
        let line = format!("page {}070000", "00".repeat(24));
        let page = read(&[&line]).unwrap();
        assert_eq!((page.input.len(), page.allowance), (27, 1_000_000));
        assert_eq!(page.parts(), Some((Order::default(), &[7, 0, 0][..])));
        assert!(page.is_of_program() && page.check().is_of_program());
        assert_eq!(page.told(), line);
        let short = read(&["page 0102"]).unwrap();
        assert_eq!((short.parts(), short.told().as_str()), (None, "page 0102"));
        assert!(read(&["page 00", "allowance 3"]).is_err());
    }

    #[test]
    fn a_page_with_an_allowance_is_read_from_its_fields_and_told_with_them() {
        let lines = ["filed", "book 070000", "allowance 9", "order 6 16 5"];
        let page = read(&lines).unwrap();
        let order = Order { wanted: 6, unwanted: 16, standard: 5 };
        assert_eq!(page.parts(), Some((order, &[7, 0, 0][..])));
        let check = page.check();
        assert_eq!((check.allowance, check.places.derived), (9, [2048; 2]));
        assert!(!page.is_of_program());
        assert_eq!(page.told(), lines.join("\n"));
        let due = "the lines book, allowance, order are due, not 2 lines";
        assert_eq!(read(&lines[..3]).unwrap_err(), due);
    }

    #[test]
    fn the_ports_page_is_that_of_its_outcome() {
        let page = Page::of_program(vec![0; 27]);
        assert_eq!(page.port_page(), "can                0         0         0\n");
        let page = Page::of_program(vec![0; 23]);
        assert_eq!(page.port_page(), "refused            1         0         0\n");
    }
}
