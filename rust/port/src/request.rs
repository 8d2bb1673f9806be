//! A request to check an order against a book: refusals in the table's order, then the steps.

use crate::book::{self, Book};
use crate::outcome::Outcome;
use crate::steps;
use crate::words::{first, lowest, Rule};

/// Derived rules have at most this many places.
const DERIVED_PLACES: usize = 2048;
/// A record table has at least this many places.
const RECORD_PLACES: usize = 64;

/// The lengths of the lent tables: two for derived rules, three for records.
#[derive(Clone, Copy, Debug)]
pub struct Places {
    pub derived: [usize; 2],
    pub records: [usize; 3],
}

impl Places {
    /// Equal derived tables, and equal record tables.
    pub fn equal(derived: usize, records: usize) -> Places {
        Places { derived: [derived; 2], records: [records; 3] }
    }

    /// No length is refused.
    pub fn are_permitted(&self) -> bool {
        let [fitted, left_out] = self.derived;
        fitted == left_out
            && fitted <= DERIVED_PLACES
            && self.records.iter().all(|&length| length >= RECORD_PLACES)
    }
}

/// An order's three sets of options. The standard ones come unless they are unwanted.
#[derive(Clone, Copy, Debug, Default)]
pub struct Order {
    pub wanted: u64,
    pub unwanted: u64,
    pub standard: u64,
}

/// A book's bytes, an order, the lent places and the branching allowance.
#[derive(Clone, Copy, Debug)]
pub struct Request<'a> {
    pub book: &'a [u8],
    pub order: Order,
    pub places: Places,
    pub allowance: u32,
}

/// The outcome of a request.
pub fn check(request: &Request) -> Outcome {
    match accepted(request) {
        Err(number) => Outcome::refused(number),
        Ok(book) => {
            let mut table = book.rules;
            table.extend(order_rules(request.order));
            steps::run(book.n, table, request.places.derived[0], request.allowance)
        }
    }
}

/// The book, where nothing is refused; else the refusal's number, 1 to 9 or 12.
fn accepted(request: &Request) -> Result<Book, u32> {
    let book = book_with_order(request.book, request.order)?;
    match request.places.are_permitted() {
        true => Ok(book),
        false => Err(9),
    }
}

/// The book, where neither it nor the order is refused; else the refusal's number, 1 to 8 or 12. A
/// standard option above n, which is 12, comes right after 8.
pub fn book_with_order(book: &[u8], order: Order) -> Result<Book, u32> {
    let book = book::read(book)?;
    let Order { wanted, unwanted, standard } = order;
    if (wanted | unwanted) & !first(book.n) != 0 {
        return Err(7);
    }
    if wanted & unwanted != 0 {
        return Err(8);
    }
    if standard & !first(book.n) != 0 {
        return Err(12);
    }
    Ok(book)
}

/// The completed order as rules: the wanted options and the standard ones that are not unwanted in
/// one run, lowest first, then the unwanted ones.
fn order_rules(order: Order) -> Vec<Rule> {
    let wanted = order.wanted | (order.standard & !order.unwanted);
    let fitted = members(wanted).into_iter().map(|option| Rule { fitted: option, left_out: 0 });
    let unwanted = members(order.unwanted).into_iter();
    let left_out = unwanted.map(|option| Rule { fitted: 0, left_out: option });
    fitted.chain(left_out).collect()
}

/// The options of a set, lowest first, each as a set.
pub fn members(mut set: u64) -> Vec<u64> {
    let mut members = Vec::new();
    while set != 0 {
        members.push(lowest(set));
        set &= set - 1;
    }
    members
}

#[cfg(test)]
mod tests {
    use super::*;

    fn rules(wanted: u64, unwanted: u64, standard: u64) -> Vec<(u64, u64)> {
        let rules = order_rules(Order { wanted, unwanted, standard });
        rules.iter().map(|rule| (rule.fitted, rule.left_out)).collect()
    }

    #[test]
    fn wanted_options_stand_lowest_first_and_then_the_unwanted_ones() {
        assert_eq!(rules(0b1010, 0b0101, 0), [(2, 0), (8, 0), (0, 1), (0, 4)]);
        assert_eq!(rules(0, 0, 0), []);
    }

    #[test]
    fn standard_options_join_the_run_of_wanted_ones_and_stand_there_once() {
        assert_eq!(rules(0b1010, 0b10000, 0b0101), [(1, 0), (2, 0), (4, 0), (8, 0), (0, 16)]);
        assert_eq!(rules(0b0110, 0, 0b0011), [(1, 0), (2, 0), (4, 0)]);
        assert_eq!(rules(1, 0, 1 << 63), [(1, 0), (1 << 63, 0)]);
    }

    #[test]
    fn a_standard_option_that_is_unwanted_has_only_that_rule() {
        assert_eq!(rules(0b0010, 0b0001, 0b0101), [(2, 0), (4, 0), (0, 1)]);
        assert_eq!(rules(0, 0b0011, 0b0011), [(0, 1), (0, 2)]);
    }
}
