//! An order whose cheapest plant is looked for, at list prices and with a rebate.

use super::of_port;
use crate::fields::{key_and_value, list, numbers, order, values};
use crate::hex::{bytes, hex};
use optbook::bytes::{input_bytes, read_input};
use optbook::{first, option, Book, Order, OPTIONS};
use port::Quote;

/// A book's bytes, an order, the list prices in cents and the rebate in thousandths.
#[derive(Clone, Debug)]
pub struct Cheapest {
    pub book: Vec<u8>,
    pub order: Order,
    pub prices: Vec<u64>,
    pub rebate: u64,
}

/// The cheapest plant, none where nothing can be built, or the number of the refusal.
pub type Quoted = Result<Option<Quote>, u32>;

impl Cheapest {
    /// The question of these fields of a case.
    pub fn read(fields: &[&str]) -> Result<Cheapest, String> {
        let [book, words, prices, rebate] = values(["book", "order", "prices", "rebate"], fields)?;
        let [rebate] = numbers(rebate)?;
        Ok(Cheapest { book: bytes(book)?, order: order(words)?, prices: list(prices)?, rebate })
    }

    /// The cheapest plant by the port, which tries all choices.
    pub fn port_quoted(&self) -> Quoted {
        port::cheapest(&self.book, of_port(self.order), &self.prices, self.rebate)
    }

    /// The same by the port's branches, which take less time.
    pub fn by_branches(&self) -> Quoted {
        port::cheapest_by_branches(&self.book, of_port(self.order), &self.prices, self.rebate)
    }

    /// The number of options that the book says it has; none of a book without a byte.
    pub fn options(&self) -> usize {
        self.book.first().map_or(0, |options| usize::from(*options))
    }

    /// The free options, each as a set, in ascending number.
    pub fn free(&self) -> Vec<u64> {
        let Order { wanted, unwanted, .. } = self.order.completed();
        let free = first(self.options()) & !(wanted | unwanted);
        (0..OPTIONS).map(option).filter(|option| free & option != 0).collect()
    }

    /// The book, where neither it nor the order is refused.
    pub fn whole_book(&self) -> Option<Book> {
        read_input(&input_bytes(self.order, &self.book)).ok().map(|(_, book)| book)
    }

    /// The question as the lines of a case.
    pub fn told(&self) -> String {
        let [wanted, unwanted, standard] = self.order.words();
        let prices: String = self.prices.iter().map(|price| format!(" {price}")).collect();
        let order = format!("order {wanted} {unwanted} {standard}");
        format!(
            "cheapest\nbook {}\n{order}\nprices{prices}\nrebate {}",
            hex(&self.book),
            self.rebate
        )
    }
}

/// The answer as it is printed.
pub fn quoted_text(quoted: &Quoted) -> String {
    match quoted {
        Ok(Some(Quote { total, due, choice })) => format!("can {total} {due} {choice}\n"),
        Ok(None) => "cannot\n".to_string(),
        Err(number) => format!("refused {number}\n"),
    }
}

/// The answer that is printed so; none where it has no meaning.
pub fn read_quoted(printed: &str) -> Option<Quoted> {
    match key_and_value(printed.strip_suffix('\n')?) {
        ("can", words) => {
            let [total, due, choice] = numbers(words).ok()?;
            Some(Ok(Some(Quote { total, due, choice })))
        }
        ("cannot", "") => Some(Ok(None)),
        ("refused", number) => Some(Err(number.parse().ok()?)),
        _ => None,
    }
}

#[cfg(test)]
mod tests {
    use super::*;
    use crate::question::Question;

    const LINES: [&str; 5] =
        ["cheapest", "book 050000", "order 2 8 26", "prices 10 20 30 40 50 60", "rebate 5"];

    fn read(lines: &[&str]) -> Result<Cheapest, String> {
        match Question::read(lines)? {
            Question::Cheapest(cheapest) => Ok(cheapest),
            question => panic!("{question:?} asks for no cheapest plant"),
        }
    }

    #[test]
    fn the_question_is_read_from_its_fields_and_told_with_them() {
        let cheapest = read(&LINES).unwrap();
        assert_eq!(cheapest.book, [5, 0, 0]);
        assert_eq!(cheapest.order, Order { wanted: 2, unwanted: 8, standard: 26 });
        assert_eq!(
            (cheapest.prices.as_slice(), cheapest.rebate),
            (&[10, 20, 30, 40, 50, 60][..], 5)
        );
        assert_eq!(cheapest.told(), LINES.join("\n"));
        let due = "the lines book, order, prices, rebate are due, not 3 lines";
        assert_eq!(read(&LINES[..4]).unwrap_err(), due);
        let with = |prices, rebate| read(&[LINES[0], LINES[1], LINES[2], prices, rebate]);
        assert_eq!(with("prices 1 x", LINES[4]).unwrap_err(), "numbers are due, not `1 x`");
        assert_eq!(with(LINES[3], "rebate 1 2").unwrap_err(), "1 numbers are due, not `1 2`");
    }

    #[test]
    fn there_may_be_any_number_of_prices() {
        let with = |prices| read(&[LINES[0], LINES[1], LINES[2], prices, LINES[4]]).unwrap();
        assert!(with("prices").prices.is_empty() && with("prices ").prices.is_empty());
        assert!(with("prices").told().contains("\nprices\nrebate 5"));
        assert_eq!(with("prices 18446744073709551615").prices, [u64::MAX]);
        let many = format!("prices{}", " 7".repeat(70));
        assert_eq!(with(&many).prices, [7; 70]);
    }

    /// Options 2 and 5 are wanted, the last for being standard, and 4 is unwanted.
    #[test]
    fn free_options_are_in_neither_set_of_the_completed_order() {
        let cheapest = read(&LINES).unwrap();
        assert_eq!((cheapest.options(), cheapest.free()), (5, vec![1, 4]));
        assert_eq!(cheapest.whole_book(), Some(Book { options: 5, rules: Vec::new() }));
        let none = Cheapest { book: Vec::new(), ..cheapest };
        assert_eq!((none.options(), none.free(), none.whole_book()), (0, Vec::new(), None));
    }

    /// 70 less five thousandths is 69.65.
    #[test]
    fn the_answer_is_one_line() {
        let cheapest = read(&LINES).unwrap();
        assert_eq!(quoted_text(&cheapest.port_quoted()), "can 70 70 18\n");
        assert_eq!(cheapest.by_branches(), cheapest.port_quoted());
        assert_eq!(quoted_text(&Ok(None)), "cannot\n");
        let order = Order { standard: 32, ..cheapest.order };
        assert_eq!(quoted_text(&Cheapest { order, ..cheapest }.port_quoted()), "refused 12\n");
    }

    #[test]
    fn an_answer_reads_back_and_another_line_does_not() {
        for quoted in [Ok(Some(Quote { total: 70, due: 69, choice: 18 })), Ok(None), Err(12)] {
            assert_eq!(read_quoted(&quoted_text(&quoted)), Some(quoted));
        }
        for line in ["", "can 1 2\n", "can 1 2 3", "can 1 2 3 4\n", "cannot 1\n", "refused\n"] {
            assert_eq!(read_quoted(line), None, "{line}");
        }
    }
}
