//! The next site of a terminal, whatever the terminal's three numbers are: no run of calls need lead to
//! them.

use super::sites::words_and_lengths;
use super::Check;
use crate::fields::{numbers, order_and_places, values};
use crate::hex::{bytes, hex};
use optbook::bytes::input_bytes;
use optbook::Order;
use port::{Outcome, Places};

/// A terminal and its next site: the book's bytes, the branchings that are left, the part of a site, the
/// sites to come, the site's order and the lengths of its tables.
#[derive(Clone, Debug)]
pub struct Terminal {
    pub book: Vec<u8>,
    pub left: u32,
    pub part: u32,
    pub sites: u32,
    pub order: Order,
    pub places: Places,
}

/// A terminal that served a site: its outcome, what is then left, and the sites that are then to come.
#[derive(Clone, Debug, PartialEq, Eq)]
pub struct After {
    pub outcome: Outcome,
    pub left: u32,
    pub sites: u32,
}

impl Terminal {
    /// The question of these fields of a case.
    pub fn read(fields: &[&str]) -> Result<Terminal, String> {
        let [book, terminal, site] = values(["book", "numbers", "site"], fields)?;
        let [left, part, sites] = numbers(terminal)?;
        let (order, places) = order_and_places(site)?;
        Ok(Terminal { book: bytes(book)?, left, part, sites, order, places })
    }

    /// The branchings that the site may use: what is left less the parts of the sites after it, or 0 where
    /// that is below 0; nothing where no site is to come.
    pub fn allowance(&self) -> Option<u32> {
        let [left, part, sites] = [self.left, self.part, self.sites].map(i128::from);
        match sites {
            0 => None,
            _ => Some((left - part * (sites - 1)).max(0) as u32),
        }
    }

    /// The site singly, with this allowance.
    pub fn singly(&self, allowance: u32) -> Check {
        Check { input: input_bytes(self.order, &self.book), places: self.places, allowance }
    }

    /// What the port's check of the site leaves of the terminal; refusal 21 leaves all of it.
    pub fn port_after(&self) -> After {
        let Terminal { left, sites, .. } = *self;
        match self.allowance() {
            None => After { outcome: Outcome::refused(21), left, sites },
            Some(allowance) => {
                let outcome = self.singly(allowance).port_outcome();
                After { left: left - outcome.branchings, sites: sites - 1, outcome }
            }
        }
    }

    /// The question as the lines of a case.
    pub fn told(&self) -> String {
        let Terminal { book, left, part, sites, order, places } = self;
        format!(
            "terminal\nbook {}\nnumbers {left} {part} {sites}\nsite {}",
            hex(book),
            words_and_lengths(*order, *places)
        )
    }
}

/// The outcome as it is printed, and then the terminal.
pub fn after_text(after: &After) -> String {
    let After { outcome, left, sites } = after;
    format!("{outcome}left {left}\nsites {sites}\n")
}

#[cfg(test)]
mod tests {
    use super::*;
    use crate::question::Question;

    const LINES: [&str; 4] =
        ["terminal", "book 070000", "numbers 9 4 2", "site 6 24 32 11 10 64 65 66"];

    fn read(lines: &[&str]) -> Result<Terminal, String> {
        match Question::read(lines)? {
            Question::Terminal(terminal) => Ok(terminal),
            question => panic!("{question:?} is no terminal"),
        }
    }

    #[test]
    fn a_terminal_is_read_from_its_fields_and_told_with_them() {
        let terminal = read(&LINES).unwrap();
        assert_eq!([terminal.left, terminal.part, terminal.sites], [9, 4, 2]);
        assert_eq!(
            (terminal.book.as_slice(), terminal.order.words()),
            (&[7, 0, 0][..], [6, 24, 32])
        );
        let Places { derived, records } = terminal.places;
        assert_eq!((derived, records), ([11, 10], [64, 65, 66]));
        assert_eq!(terminal.told(), LINES.join("\n"));
        let told = read(&LINES[..3]).unwrap_err();
        assert_eq!(told, "the lines book, numbers, site are due, not 2 lines");
    }

    #[test]
    fn the_parts_of_the_sites_after_it_are_kept_of_what_is_left() {
        let of =
            |left, part, sites| Terminal { left, part, sites, ..read(&LINES).unwrap() }.allowance();
        assert_eq!([of(9, 4, 1), of(9, 4, 2), of(9, 4, 3)], [Some(9), Some(5), Some(1)]);
        assert_eq!([of(9, 4, 4), of(9, 4, 0), of(0, 0, 1)], [Some(0), None, Some(0)]);
        let most = u32::MAX;
        assert_eq!([of(most, most, most), of(most, most, 2)], [Some(0); 2]);
        assert_eq!([of(most, 1, most), of(most, 1 << 31, 3)], [Some(1), Some(0)]);
    }

    /// The book of the rules "1" and "not 1", which takes one branching.
    #[test]
    fn the_port_leaves_what_its_check_does_not_use() {
        let book = format!("book 010200{0}{1}{1}{0}", "0100000000000000", "0000000000000000");
        let of = |numbers: &str, site: &str| {
            let lines = ["terminal", &book, &format!("numbers {numbers}"), site];
            after_text(&read(&lines).unwrap().port_after())
        };
        let site = "site 0 0 0 1 1 64 64 64";
        let cannot = "cannot 0 1 1 1\nd 0 0\nr 0 0 1\n";
        assert_eq!(of("9 4 2", site), format!("{cannot}left 8\nsites 1\n"));
        assert_eq!(of("8 4 3", site), "stopped 10 0 0 0\nleft 8\nsites 2\n");
        assert_eq!(of("8 4 3", "site 2 0 0 1 1 64 64 64"), "refused 7 0 0 0\nleft 8\nsites 2\n");
        assert_eq!(of("9 4 0", site), "refused 21 0 0 0\nleft 9\nsites 0\n");
    }
}
