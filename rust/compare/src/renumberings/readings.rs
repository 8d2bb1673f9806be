//! How a renumbering acts on what is asked, by the port (port/src/renumber.rs). Tests put wrong readings in its
//! place.

use optbook::{Book, Order, Rule};
use port::Renumbering;

/// What a renumbering makes of a rule, of an order (completed, as two words, or with a standard word) and of a
/// choice, and its way back.
#[derive(Clone, Copy)]
pub struct Reading {
    pub rule: fn(&Renumbering, Rule) -> Rule,
    pub order: fn(&Renumbering, Order) -> Order,
    pub with_standard: fn(&Renumbering, Order) -> Order,
    pub choice: fn(&Renumbering, u64) -> u64,
    pub back: fn(&Renumbering) -> Renumbering,
}

pub const RIGHT: Reading =
    Reading { rule, order, with_standard, choice: Renumbering::choice, back: Renumbering::back };

impl Reading {
    pub fn book(&self, renumbering: &Renumbering, book: &Book) -> Book {
        let rules = book.rules.iter().map(|rule| (self.rule)(renumbering, *rule)).collect();
        Book { options: book.options, rules }
    }
}

fn rule(renumbering: &Renumbering, rule: Rule) -> Rule {
    let Rule { fitted, left_out } = rule;
    let port::Rule { fitted, left_out } = renumbering.rule(port::Rule { fitted, left_out });
    Rule { fitted, left_out }
}

fn order(renumbering: &Renumbering, order: Order) -> Order {
    let Order { wanted, unwanted, standard } = order;
    let port::Order { wanted, unwanted, standard } =
        renumbering.order(port::Order { wanted, unwanted, standard });
    Order { wanted, unwanted, standard }
}

/// A standard option that is neither unwanted nor reversed stays standard. The other standard ones are completed
/// here, so that a reversed one is unwanted there, or wanted if it is unwanted here.
fn with_standard(renumbering: &Renumbering, asked: Order) -> Order {
    let stays = asked.standard & !asked.unwanted & !renumbering.reversed();
    let others = Order { standard: asked.standard & !stays, ..asked };
    Order { standard: renumbering.set(stays), ..order(renumbering, others) }
}

#[cfg(test)]
mod tests {
    use super::*;

    /// Options 1 to 6 are 2 to 6 and 1 there, and 4, 5 and 6 are reversed. Of each three one is standard and wanted,
    /// one standard and unwanted, and one standard alone.
    #[test]
    fn a_standard_option_stays_one_where_it_is_neither_unwanted_nor_reversed() {
        let renumbering = Renumbering::new(vec![2, 3, 4, 5, 6, 1], 0b111000).unwrap();
        let asked = Order { wanted: 0b001001, unwanted: 0b010010, standard: 0b111111 };
        let there = (RIGHT.with_standard)(&renumbering, asked);
        let due = Order { wanted: 0b100010, unwanted: 0b010101, standard: 0b001010 };
        assert_eq!(there, due);
        let two_words = Order { wanted: 0b101010, unwanted: 0b010101, standard: 0 };
        assert_eq!((RIGHT.order)(&renumbering, asked), two_words);
        assert_eq!(there.completed(), two_words);
    }

    #[test]
    fn a_book_is_renumbered_rule_by_rule() {
        let renumbering = Renumbering::new(vec![2, 1, 3], 0b100).unwrap();
        let rules = |of: &[(u64, u64)]| -> Vec<Rule> {
            of.iter().map(|&(fitted, left_out)| Rule { fitted, left_out }).collect()
        };
        let book = Book { options: 3, rules: rules(&[(1, 4), (0, 0), (4, 3), (1, 4)]) };
        let due = Book { options: 3, rules: rules(&[(6, 0), (0, 0), (0, 7), (6, 0)]) };
        assert_eq!(RIGHT.book(&renumbering, &book), due);
    }
}
