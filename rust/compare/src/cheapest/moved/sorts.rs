//! What may come up where one price rises, each by a name.

use super::{Moved, Quotes};
use crate::cheapest::prices::{PRICE, REBATE};
use crate::cheapest::run::FEW;
use optbook::OPTIONS;

/// A name, and whether it comes up.
type Sort = (&'static str, fn(&Moved) -> bool);

/// All of them, in the order in which they are told.
pub const SORTS: [Sort; 18] = [
    ("all of a rise", |moved| moved.rises() && moved.total_risen() == moved.rise.by),
    ("a part of a rise", |moved| (1..moved.rise.by).contains(&moved.total_risen())),
    ("nothing of a rise", |moved| moved.rises() && moved.total_risen() == 0),
    ("a rise of 0", |moved| !moved.rises()),
    ("left out by the choice handed out", |moved| moved.rises() && !moved.is_handed_out()),
    ("left out by another cheapest choice alone", |moved| {
        moved.rises() && moved.is_handed_out() && moved.left_out.is_so()
    }),
    ("free and left out by no cheapest choice", |moved| {
        moved.rises() && moved.is_in(moved.run.all_free()) && !moved.left_out.is_so()
    }),
    ("another choice after a rise", |moved| {
        moved.has_quotes(|quotes| quotes.after.choice != quotes.before.choice)
    }),
    ("a higher total with no rebate", |moved| {
        moved.has_quotes(|quotes| quotes.total_risen() > 0 && quotes.asked.rebate == 0)
    }),
    ("a higher total and the same amount due", |moved| {
        moved.has_quotes(|quotes| {
            quotes.total_risen() > 0 && quotes.due_risen() == 0 && quotes.asked.rebate < REBATE
        })
    }),
    ("a higher total with a rebate of 1,000", |moved| {
        moved.has_quotes(|quotes| quotes.total_risen() > 0 && quotes.asked.rebate == REBATE)
    }),
    ("all of a rise due with a rebate", |moved| {
        moved.rises()
            && moved
                .has_quotes(|quotes| quotes.due_risen() == moved.rise.by && quotes.asked.rebate > 0)
    }),
    ("a wanted option's price", |moved| moved.rises() && moved.is_in(moved.run.order().wanted)),
    ("a standard option's price", |moved| moved.rises() && moved.is_in(moved.run.standard_alone())),
    ("an unwanted option's price", |moved| {
        moved.rises() && moved.is_in(moved.run.order().unwanted)
    }),
    ("a rise to 10,000,000", |moved| {
        let price = moved.run.asked.prices[moved.rise.index];
        moved.rises() && price + moved.rise.by == PRICE
    }),
    ("a rise among 64 options", |moved| moved.rises() && moved.run.asked.options() == OPTIONS),
    ("a rise with more than 12 free options", |moved| moved.rises() && moved.run.free.len() > FEW),
];

impl Moved<'_> {
    fn rises(&self) -> bool {
        self.rise.by > 0
    }

    fn total_risen(&self) -> u64 {
        self.quotes[0].total_risen()
    }

    /// The choice that is handed out at the old price has the option.
    fn is_handed_out(&self) -> bool {
        self.is_in(self.quotes[0].before.choice)
    }

    fn is_in(&self, options: u64) -> bool {
        options & self.rise.option() != 0
    }

    fn has_quotes(&self, is_such: impl Fn(&Quotes) -> bool) -> bool {
        self.quotes.iter().any(is_such)
    }
}

impl Quotes {
    fn total_risen(&self) -> u64 {
        self.after.total - self.before.total
    }

    fn due_risen(&self) -> u64 {
        self.after.due - self.before.due
    }
}

#[cfg(test)]
mod tests {
    use super::super::Rise;
    use super::*;
    use crate::cheapest::run::Run;
    use crate::question::Cheapest;
    use crate::under_test::Port;
    use optbook::bytes::book_bytes;
    use optbook::{Book, Order, Rule};

    /// The names of what comes up where the first option's price rises by so much, in a book that asks for one of
    /// so many options.
    fn of(
        options: usize,
        [wanted, unwanted, standard]: [u64; 3],
        prices: &[u64],
        rebate: u64,
        by: u64,
    ) -> Vec<&'static str> {
        let rules = vec![Rule { fitted: optbook::first(options), left_out: 0 }];
        let book = book_bytes(&Book { options, rules });
        let mut prices = prices.to_vec();
        prices.resize(OPTIONS, 9);
        let asked = Cheapest { book, order: Order { wanted, unwanted, standard }, prices, rebate };
        let quoted = asked.by_branches();
        let run = Run::new(&asked, &quoted);
        let moved = Moved::new(&mut Port, &run, Rise { index: 0, by }).unwrap();
        SORTS.iter().filter(|(_, is_such)| is_such(&moved)).map(|(name, _)| *name).collect()
    }

    const NO_WISHES: [u64; 3] = [0; 3];
    const IN_ALL: &str = "free and left out by no cheapest choice";
    const HIGHER: &str = "a higher total with no rebate";

    /// Option 1 costs 3, and the next cheapest one 4 or 3.
    #[test]
    fn rises_are_sorted_by_how_far_the_total_follows() {
        let of = |prices: &[u64], by| of(3, NO_WISHES, prices, 0, by);
        assert_eq!(of(&[3, 5, 4], 1), ["all of a rise", IN_ALL, HIGHER]);
        let another = "another choice after a rise";
        assert_eq!(of(&[3, 5, 4], 6), ["a part of a rise", IN_ALL, another, HIGHER]);
        assert_eq!(of(&[3, 5, 4], 0), ["a rise of 0"]);
        assert_eq!(of(&[5, 3, 4], 6), ["nothing of a rise", "left out by the choice handed out"]);
        let by_another = "left out by another cheapest choice alone";
        assert_eq!(of(&[3, 5, 3], 6), ["nothing of a rise", by_another, another]);
        assert_eq!(of(&[3, 5, 3], 0), ["a rise of 0"]);
    }

    /// With half off, 2 cents are 1, and 3 and 4 are 2.
    #[test]
    fn rises_are_sorted_by_how_far_the_amount_due_follows() {
        let of = |price, rebate| of(3, NO_WISHES, &[price, 9, 9], rebate, 1)[3..].to_vec();
        assert_eq!(of(3, 500), ["a higher total and the same amount due"]);
        assert_eq!(of(2, 500), ["all of a rise due with a rebate"]);
        assert_eq!(of(3, 1000), ["a higher total with a rebate of 1,000"]);
        assert_eq!(of(3, 0), [""; 0]);
    }

    #[test]
    fn rises_are_sorted_by_order_price_and_book() {
        let with = |order| of(3, order, &[3], 0, 1);
        assert_eq!(with([1, 0, 0]), ["all of a rise", HIGHER, "a wanted option's price"]);
        assert_eq!(with([0, 0, 1]), ["all of a rise", HIGHER, "a standard option's price"]);
        let left_out = ["nothing of a rise", "left out by the choice handed out"];
        assert_eq!(with([0, 1, 1]), [&left_out[..], &["an unwanted option's price"]].concat());
        let last = |options, order, price| of(options, order, &[price], 0, 1).pop().unwrap();
        assert_eq!(last(3, NO_WISHES, PRICE - 1), "a rise to 10,000,000");
        assert_eq!(last(13, NO_WISHES, 3), "a rise with more than 12 free options");
        assert_eq!(last(12, NO_WISHES, 3), HIGHER);
        assert_eq!(last(64, [!7, 0, 0], 3), "a rise among 64 options");
    }
}
