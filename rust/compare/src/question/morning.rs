//! A morning's orders together.

use super::{of_port, Check};
use crate::fields::{numbers, order, places, values};
use crate::hex::{bytes, hex};
use optbook::bytes::input_bytes;
use optbook::Order;
use port::{Outcome, Places};

/// A morning: the book's bytes, the orders, the lengths of the whole lent tables and each order's
/// allowance.
#[derive(Clone, Debug)]
pub struct Morning {
    pub book: Vec<u8>,
    pub orders: Vec<Order>,
    pub places: Places,
    pub allowance: u32,
}

impl Morning {
    /// The morning of these fields of a case: a line for each order stands after the others.
    pub fn read(fields: &[&str]) -> Result<Morning, String> {
        const HEAD: [&str; 3] = ["book", "allowance", "tables"];
        let (head, rest) = fields.split_at(fields.len().min(HEAD.len()));
        let [book, allowance, tables] = values(HEAD, head)?;
        let [allowance] = numbers(allowance)?;
        let mut orders = Vec::new();
        for &line in rest {
            let [words] = values(["order"], &[line])?;
            orders.push(order(words)?);
        }
        Ok(Morning { book: bytes(book)?, orders, places: places(tables)?, allowance })
    }

    /// The port's outcomes in turn, or the number of the refusal.
    pub fn port_outcomes(&self) -> Result<Vec<Outcome>, u32> {
        let orders: Vec<port::Order> = self.orders.iter().copied().map(of_port).collect();
        let Morning { book, places, allowance, .. } = self;
        port::morning(&port::Morning {
            book,
            orders: &orders,
            places: *places,
            allowance: *allowance,
        })
    }

    /// Each order singly, with tables as long as its parts.
    pub fn singly(&self) -> Vec<Check> {
        let Morning { book, orders, places: Places { derived, records }, allowance } = self;
        let part = |length: usize| length / orders.len();
        let places = Places { derived: derived.map(part), records: records.map(part) };
        let check = |&order: &Order| {
            let input = input_bytes(order, book);
            Check { input, places, allowance: *allowance }
        };
        orders.iter().map(check).collect()
    }

    /// The morning as the lines of a case.
    pub fn told(&self) -> String {
        let Places { derived: [pos, neg], records: [decided, trues, redundant] } = self.places;
        let mut text = format!(
            "morning\nbook {}\nallowance {}\ntables {pos} {neg} {decided} {trues} {redundant}",
            hex(&self.book),
            self.allowance
        );
        for order in &self.orders {
            let [wanted, unwanted, standard] = order.words();
            text += &format!("\norder {wanted} {unwanted} {standard}");
        }
        text
    }
}

#[cfg(test)]
mod tests {
    use super::*;
    use crate::question::Question;

    const LINES: [&str; 6] = [
        "morning",
        "book 070000",
        "allowance 9",
        "tables 11 10 130 128 200",
        "order 6 7 8",
        "order 1 2 3",
    ];

    fn read(lines: &[&str]) -> Result<Morning, String> {
        match Question::read(lines)? {
            Question::Morning(morning) => Ok(morning),
            question => panic!("{question:?} is no morning"),
        }
    }

    #[test]
    fn a_morning_is_read_from_its_fields_and_told_with_them() {
        let morning = read(&LINES).unwrap();
        let orders: Vec<[u64; 3]> = morning.orders.iter().map(|order| order.words()).collect();
        assert_eq!(orders, [[6, 7, 8], [1, 2, 3]]);
        assert_eq!((morning.book.as_slice(), morning.allowance), (&[7, 0, 0][..], 9));
        let Places { derived, records } = morning.places;
        assert_eq!((derived, records), ([11, 10], [130, 128, 200]));
        assert_eq!(morning.told(), LINES.join("\n"));
    }

    #[test]
    fn there_may_be_no_order_but_nothing_else_after_the_tables() {
        assert_eq!(read(&LINES[..4]).unwrap().orders, []);
        let told = |lines: &[&str]| read(lines).unwrap_err();
        let due = "the lines book, allowance, tables are due, not 2 lines";
        assert_eq!(told(&LINES[..3]), due);
        assert_eq!(told(&[&LINES[..], &["site 1 2 3"]].concat()), "`order` is due, not `site`");
        let short = [&LINES[..], &["order 1 2"]].concat();
        assert_eq!(told(&short), "3 numbers are due, not `1 2`");
    }

    #[test]
    fn an_order_asked_singly_has_tables_as_long_as_its_parts() {
        let singly = read(&LINES).unwrap().singly();
        let orders: Vec<_> = singly.iter().map(|check| check.parts().unwrap().0.words()).collect();
        assert_eq!(orders, [[6, 7, 8], [1, 2, 3]]);
        for check in singly {
            assert_eq!(check.places.derived, [5, 5]);
            assert_eq!(check.places.records, [65, 64, 100]);
            assert_eq!(check.allowance, 9);
        }
    }
}
