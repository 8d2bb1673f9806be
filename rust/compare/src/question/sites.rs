//! Sites that share one allowance.

use super::{of_port, Check};
use crate::fields::{numbers, order_and_places, values};
use crate::hex::{bytes, hex};
use optbook::bytes::input_bytes;
use optbook::Order;
use port::{Outcome, Places, Served};

/// A site: its order, and the lengths of its tables.
#[derive(Clone, Copy, Debug)]
pub struct Site {
    pub order: Order,
    pub places: Places,
}

/// Sites: the book's bytes, each site, and the allowance of all of them.
#[derive(Clone, Debug)]
pub struct Sites {
    pub book: Vec<u8>,
    pub sites: Vec<Site>,
    pub allowance: u32,
}

impl Sites {
    /// The sites of these fields of a case: a line for each of them stands after the others.
    pub fn read(fields: &[&str]) -> Result<Sites, String> {
        const HEAD: [&str; 2] = ["book", "allowance"];
        let (head, rest) = fields.split_at(fields.len().min(HEAD.len()));
        let [book, allowance] = values(HEAD, head)?;
        let [allowance] = numbers(allowance)?;
        let mut sites = Vec::new();
        for &line in rest {
            let [words] = values(["site"], &[line])?;
            let (order, places) = order_and_places(words)?;
            sites.push(Site { order, places });
        }
        Ok(Sites { book: bytes(book)?, sites, allowance })
    }

    /// The sites that the port served, in turn, or the number of the refusal.
    pub fn port_served(&self) -> Result<Vec<Served>, u32> {
        let site = |&Site { order, places }: &Site| port::Site { order: of_port(order), places };
        let sites: Vec<port::Site> = self.sites.iter().map(site).collect();
        port::sites(&port::Sites { book: &self.book, sites: &sites, allowance: self.allowance })
    }

    /// The port's outcomes in turn, or the number of the refusal.
    pub fn port_outcomes(&self) -> Result<Vec<Outcome>, u32> {
        Ok(self.port_served()?.into_iter().map(|served| served.outcome).collect())
    }

    /// The site with this index singly, with an allowance of its own.
    pub fn singly(&self, index: usize, allowance: u32) -> Check {
        let Site { order, places } = self.sites[index];
        Check { input: input_bytes(order, &self.book), places, allowance }
    }

    /// The sites as the lines of a case.
    pub fn told(&self) -> String {
        let mut text = format!("sites\nbook {}\nallowance {}", hex(&self.book), self.allowance);
        for Site { order, places } in &self.sites {
            text += &format!("\nsite {}", words_and_lengths(*order, *places));
        }
        text
    }
}

/// The three words of an order and the lengths of the five tables, as they stand on a line.
pub fn words_and_lengths(order: Order, places: Places) -> String {
    let [wanted, unwanted, standard] = order.words();
    let Places { derived: [pos, neg], records: [decided, trues, redundant] } = places;
    format!("{wanted} {unwanted} {standard} {pos} {neg} {decided} {trues} {redundant}")
}

#[cfg(test)]
mod tests {
    use super::*;
    use crate::question::{in_turn, Question};

    const LINES: [&str; 5] = [
        "sites",
        "book 070000",
        "allowance 9",
        "site 6 24 32 11 10 64 65 66",
        "site 1 2 3 4 4 70 64 80",
    ];

    fn read(lines: &[&str]) -> Result<Sites, String> {
        match Question::read(lines)? {
            Question::Sites(sites) => Ok(sites),
            question => panic!("{question:?} has no sites"),
        }
    }

    #[test]
    fn sites_are_read_from_their_fields_and_told_with_them() {
        let sites = read(&LINES).unwrap();
        assert_eq!((sites.book.as_slice(), sites.allowance), (&[7, 0, 0][..], 9));
        let [first, second] = sites.sites[..] else { panic!("{} sites", sites.sites.len()) };
        assert_eq!((first.order.words(), second.order.words()), ([6, 24, 32], [1, 2, 3]));
        assert_eq!((first.places.derived, first.places.records), ([11, 10], [64, 65, 66]));
        assert_eq!((second.places.derived, second.places.records), ([4, 4], [70, 64, 80]));
        assert_eq!(sites.told(), LINES.join("\n"));
    }

    #[test]
    fn there_may_be_no_site_but_nothing_else_after_the_allowance() {
        assert!(read(&LINES[..3]).unwrap().sites.is_empty());
        let told = |lines: &[&str]| read(lines).unwrap_err();
        assert_eq!(told(&LINES[..2]), "the lines book, allowance are due, not 1 lines");
        let order = [&LINES[..3], &["order 1 2 3"]].concat();
        assert_eq!(told(&order), "`site` is due, not `order`");
        let short = [&LINES[..3], &["site 1 2 3 4 5 6 7"]].concat();
        assert_eq!(told(&short), "8 numbers are due, not `1 2 3 4 5 6 7`");
    }

    #[test]
    fn a_site_asked_singly_has_its_tables_and_an_allowance_of_its_own() {
        let check = read(&LINES).unwrap().singly(1, 5);
        assert_eq!(check.parts().unwrap().0.words(), [1, 2, 3]);
        assert_eq!(check.parts().unwrap().1, [7, 0, 0]);
        assert_eq!((check.places.derived, check.places.records), ([4, 4], [70, 64, 80]));
        assert_eq!(check.allowance, 5);
    }

    /// A book of one option and no rules: the second site wants an option above it.
    #[test]
    fn the_ports_outcomes_stand_in_turn() {
        let of = |sites: &[&str]| {
            let lines = [&["sites", "book 010000", "allowance 3"][..], sites].concat();
            in_turn(&read(&lines).unwrap().port_outcomes())
        };
        let (good, above) = ("site 0 0 0 0 0 64 64 64", "site 2 0 0 0 0 64 64 64");
        assert_eq!(of(&[good, above]), "can 0 0 0 1\nr 0 0 1\nrefused 7 0 0 0\n");
        assert_eq!([of(&[]), of(&[good; 9])], ["refused 21 0 0 0\n"; 2]);
    }
}
