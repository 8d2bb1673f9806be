//! The verdict on a small book by trying all choices, and how many settings of open options can be
//! built.

use optbook::{Book, Order};
use std::collections::BTreeSet;

/// Books of at most this many options are tried.
pub const MOST_OPTIONS: usize = 12;

/// Some choice keeps all rules and the completed order; nothing is said of a larger book.
pub fn can_be_built(order: Order, book: &Book) -> Option<bool> {
    if book.options > MOST_OPTIONS {
        return None;
    }
    let order = order.completed();
    let mut choices = 0..1u64 << book.options;
    Some(choices.any(|choice| meets_order(order, choice) && keeps_all(book, choice)))
}

/// So many settings of these open options are those of a choice that keeps all rules and the completed
/// order, in which no open option is standard; nothing is said of a larger book.
pub fn settings_built(order: Order, open: u64, book: &Book) -> Option<usize> {
    if book.options > MOST_OPTIONS {
        return None;
    }
    let order = Order { standard: order.standard & !open, ..order }.completed();
    let choices = 0..1u64 << book.options;
    let kept = choices.filter(|&choice| meets_order(order, choice) && keeps_all(book, choice));
    let settings: BTreeSet<u64> = kept.map(|choice| choice & open).collect();
    Some(settings.len())
}

/// The choice keeps the wishes of a completed order.
pub fn meets_order(order: Order, choice: u64) -> bool {
    order.wanted & !choice == 0 && order.unwanted & choice == 0
}

/// The choice keeps all rules.
pub fn keeps_all(book: &Book, choice: u64) -> bool {
    book.rules.iter().all(|rule| rule.is_kept_by(choice))
}

#[cfg(test)]
mod tests {
    use super::*;
    use optbook::Rule;

    fn two_options(rules: &[(u64, u64)]) -> Book {
        let rules = rules.iter().map(|&(fitted, left_out)| Rule { fitted, left_out }).collect();
        Book { options: 2, rules }
    }

    #[test]
    fn a_book_and_its_orders() {
        let book = two_options(&[(3, 0), (0, 3)]);
        let of =
            |wanted, unwanted, standard| can_be_built(Order { wanted, unwanted, standard }, &book);
        assert_eq!(of(0, 0, 0), Some(true));
        assert_eq!(of(1, 0, 0), Some(true));
        assert_eq!(of(3, 0, 0), Some(false));
        assert_eq!(of(0, 3, 0), Some(false));
        assert_eq!(of(1, 0, 2), Some(false));
        assert_eq!(of(1, 2, 3), Some(true));
    }

    #[test]
    fn the_empty_rule_is_kept_by_nothing() {
        assert_eq!(can_be_built(Order::default(), &two_options(&[(0, 0)])), Some(false));
        assert_eq!(can_be_built(Order::default(), &two_options(&[])), Some(true));
    }

    #[test]
    fn the_settings_that_can_be_built_are_counted() {
        let book = two_options(&[(3, 0), (0, 3)]);
        let of = |wanted, standard, open| {
            settings_built(Order { wanted, unwanted: 0, standard }, open, &book)
        };
        assert_eq!([of(0, 0, 0), of(0, 0, 1), of(0, 0, 3)], [Some(1), Some(2), Some(2)]);
        assert_eq!([of(1, 0, 2), of(3, 0, 0)], [Some(1), Some(0)]);
        assert_eq!([of(1, 2, 0), of(1, 2, 2)], [Some(0), Some(1)]);
    }

    #[test]
    fn a_larger_book_is_not_tried() {
        let larger = Book { options: 13, rules: vec![] };
        assert_eq!(can_be_built(Order::default(), &larger), None);
        assert_eq!(settings_built(Order::default(), 1, &larger), None);
    }
}
