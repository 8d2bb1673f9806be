//! An order whose free options the buyer and the planner settle in turns.

use super::of_port;
use crate::fields::{order, values};
use crate::hex::{bytes, hex};
use optbook::{first, option, Order, OPTIONS};
use port::Response;

/// A book's bytes and an order.
#[derive(Clone, Debug)]
pub struct Turns {
    pub book: Vec<u8>,
    pub order: Order,
}

/// What comes of the turns, or the number of the refusal.
pub type Settled = Result<port::Turns, u32>;

impl Turns {
    /// The book and the order of these fields of a case.
    pub fn read(fields: &[&str]) -> Result<Turns, String> {
        let [book, words] = values(["book", "order"], fields)?;
        Ok(Turns { book: bytes(book)?, order: order(words)? })
    }

    /// What comes of them by the port.
    pub fn port_settled(&self) -> Settled {
        port::turns(&self.book, of_port(self.order))
    }

    /// The free options, each as a set, in ascending number; none of a book without a byte.
    pub fn free(&self) -> Vec<u64> {
        let options = self.book.first().map_or(0, |options| usize::from(*options));
        let Order { wanted, unwanted, .. } = self.order.completed();
        let free = first(options) & !(wanted | unwanted);
        (0..OPTIONS).map(option).filter(|option| free & option != 0).collect()
    }

    /// The same book and order, with what is said of these options as wishes.
    pub fn with_wishes(&self, said: &[(u64, Response)]) -> Turns {
        let (mut all, mut fitted) = (0, 0);
        for (option, response) in said {
            all |= option;
            if *response == Response::Fitted {
                fitted |= option;
            }
        }
        Turns { book: self.book.clone(), order: self.order.with_setting(all, fitted) }
    }

    /// The question as the lines of a case.
    pub fn told(&self) -> String {
        let [wanted, unwanted, standard] = self.order.words();
        format!("turns\nbook {}\norder {wanted} {unwanted} {standard}", hex(&self.book))
    }
}

/// What comes of the turns as it is printed, or the refusal.
pub fn settled_text(settled: &Settled) -> String {
    match settled {
        Ok(turns) => format!("{}\n", settled_name(turns)),
        Err(number) => format!("refused {number}\n"),
    }
}

/// What comes of the turns in three words.
pub fn settled_name(turns: &port::Turns) -> String {
    let word = |answer: Option<Response>| match answer {
        Some(Response::Out) => "out",
        Some(Response::Fitted) => "fitted",
        None => "none",
    };
    format!("{} {} {}", forced_name(turns.forced), word(turns.to_out), word(turns.to_fitted))
}

/// Whether the planner can force it, by its word.
pub fn forced_name(forced: bool) -> &'static str {
    match forced {
        true => "forced",
        false => "open",
    }
}

#[cfg(test)]
mod tests {
    use super::*;
    use crate::question::Question;

    const LINES: [&str; 3] = ["turns", "book 050000", "order 2 8 26"];

    fn read(lines: &[&str]) -> Result<Turns, String> {
        match Question::read(lines)? {
            Question::Turns(turns) => Ok(turns),
            question => panic!("{question:?} is no turns"),
        }
    }

    #[test]
    fn turns_are_read_from_their_fields_and_told_with_them() {
        let turns = read(&LINES).unwrap();
        assert_eq!(turns.book, [5, 0, 0]);
        assert_eq!(turns.order, Order { wanted: 2, unwanted: 8, standard: 26 });
        assert_eq!(turns.told(), LINES.join("\n"));
        assert!(read(&["turns", "book ", "order 0 0 0"]).unwrap().book.is_empty());
        let due = "the lines book, order are due, not 1 lines";
        assert_eq!(read(&LINES[..2]).unwrap_err(), due);
        assert!(read(&["turns", "book 0", "order 0 0 0"]).is_err());
    }

    /// Options 2 and 5 are wanted, the last for being standard, and 4 is unwanted.
    #[test]
    fn free_options_are_in_neither_set_of_the_completed_order() {
        let turns = read(&LINES).unwrap();
        assert_eq!(turns.free(), [1, 4]);
        let settled = turns.with_wishes(&[(1, Response::Fitted), (4, Response::Out)]);
        assert_eq!(settled.order, Order { wanted: 3, unwanted: 12, standard: 26 });
        assert_eq!(settled.free(), []);
        assert_eq!(turns.with_wishes(&[]).free(), [1, 4]);
    }

    #[test]
    fn the_answer_is_one_line() {
        let turns = read(&LINES).unwrap();
        assert_eq!(settled_text(&turns.port_settled()), "forced out out\n");
        let open = port::Turns { forced: false, to_out: None, to_fitted: Some(Response::Fitted) };
        assert_eq!(settled_text(&Ok(open)), "open none fitted\n");
        let order = Order { standard: 32, ..turns.order };
        assert_eq!(settled_text(&Turns { order, ..turns }.port_settled()), "refused 12\n");
    }
}
