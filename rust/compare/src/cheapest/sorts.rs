//! What may come up where the cheapest plant is looked for, each by a name.

use super::prices::{PRICE, REBATE};
use super::run::{Run, FEW, FREE};
use optbook::{Book, Rule, OPTIONS, RULES};

/// A name, and whether it comes up.
type Sort = (&'static str, fn(&Run) -> bool);

/// All of them, in the order in which they are told.
pub const SORTS: [Sort; 63] = [
    ("7 and too many free", |run| run.is_refused(7) && run.free.len() > FREE),
    ("8 and too many free", |run| run.is_refused(8) && run.free.len() > FREE),
    ("12 and too many free", |run| run.is_refused(12) && run.free.len() > FREE),
    ("7 and 18", |run| run.is_refused(7) && run.has_bad_prices()),
    ("8 and 18", |run| run.is_refused(8) && run.has_bad_prices()),
    ("12 and 18", |run| run.is_refused(12) && run.has_bad_prices()),
    ("17 and a bad price", |run| run.is_refused(17) && run.bad_prices().is_some()),
    ("17 and a bad rebate", |run| run.is_refused(17) && run.asked.rebate > REBATE),
    ("17 and too few prices", |run| run.is_refused(17) && run.has_too_few()),
    ("a refused book and a bad order", |run| {
        matches!(run.quoted, Err(1..=6)) && run.order().wanted & run.order().unwanted != 0
    }),
    ("a refused book and 18", |run| matches!(run.quoted, Err(1..=6)) && run.has_bad_prices()),
    ("a price of 10,000,001", |run| run.is_refused(18) && run.asked.prices.contains(&(PRICE + 1))),
    ("the first price too high", |run| run.is_refused(18) && run.bad_prices() == Some(1)),
    ("the last price too high", |run| {
        let last = run.asked.options().saturating_sub(1);
        run.is_refused(18) && last > 0 && run.bad_prices() == Some(1 << last)
    }),
    ("an unwanted option's price too high", |run| {
        run.is_refused(18) && run.bad_prices().is_some_and(|bad| bad & !run.order().unwanted == 0)
    }),
    ("a rebate of 1,001", |run| run.is_refused(18) && run.asked.rebate == REBATE + 1),
    ("a rebate far too high", |run| run.is_refused(18) && run.asked.rebate > 1 << 32),
    ("one price too few", |run| {
        run.is_refused(18) && run.asked.prices.len() + 1 == run.asked.options()
    }),
    ("no price", |run| run.is_refused(18) && run.asked.prices.is_empty()),
    ("a price above n too high", |run| {
        let above = run.asked.prices.iter().skip(run.asked.options());
        run.is_answered() && above.max() > Some(&PRICE)
    }),
    ("just n prices", |run| run.is_of(|book| run.asked.prices.len() == book.options)),
    ("more than 64 prices", |run| run.is_answered() && run.asked.prices.len() > OPTIONS),
    ("all prices equal", |run| run.has_prices(|prices| prices.windows(2).all(|p| p[0] == p[1]))),
    ("all prices 0", |run| run.has_prices(|prices| prices.iter().all(|price| *price == 0))),
    ("an option of 10,000,000", |run| {
        run.has_quote(|quote| run.has_fitted(quote.choice, |price| price == PRICE))
    }),
    ("a rebate of 0", |run| run.has_quote(|_| run.asked.rebate == 0)),
    ("a rebate of 1", |run| run.has_quote(|_| run.asked.rebate == 1)),
    ("a rebate of 999", |run| run.has_quote(|_| run.asked.rebate == 999)),
    ("a rebate of 1,000", |run| run.has_quote(|quote| quote.total > 0 && run.asked.rebate == 1000)),
    ("a half", |run| run.has_remainder(|remainder| remainder == 500)),
    ("a half above an even number", |run| {
        run.has_quote(|quote| run.thousandths(quote) % 2000 == 500)
    }),
    ("less than a half", |run| run.has_remainder(|remainder| (1..500).contains(&remainder))),
    ("more than a half", |run| run.has_remainder(|remainder| remainder > 500)),
    ("2^32 thousandths and more", |run| run.has_quote(|quote| run.thousandths(quote) >= 1 << 32)),
    ("no option", |run| run.is_of(|book| book.options == 0)),
    ("64 options", |run| run.is_of(|book| book.options == OPTIONS)),
    ("all options free", |run| {
        run.is_of(|book| book.options > 1 && book.options == run.free.len())
    }),
    ("option 64 free", |run| run.is_of(|_| run.free.contains(&(1 << 63)))),
    ("few free options apart", |run| run.are_apart() && run.free.len() <= FEW),
    ("many free options apart", |run| run.are_apart() && run.free.len() > FEW),
    ("a wanted option costs", |run| {
        run.has_quote(|_| run.has_fitted(run.order().wanted, |price| price > 0))
    }),
    ("a standard option costs", |run| {
        run.has_quote(|_| run.has_fitted(run.standard_alone(), |price| price > 0))
    }),
    ("an unwanted standard option would cost", |run| {
        run.has_quote(|_| run.has_fitted(run.standard_unwanted(), |price| price > 0))
    }),
    ("standard and wanted", |run| run.is_of(|_| run.order().standard & run.order().wanted != 0)),
    ("too many with the standard ones", |run| run.has_too_many_with(run.standard_alone())),
    ("too many with the unwanted standard ones", |run| {
        run.has_too_many_with(run.standard_unwanted())
    }),
    ("one choice alone", |run| run.kept.len() == 1 && !run.free.is_empty()),
    ("equal totals", |run| run.equals().len() > 1),
    ("equal totals above 0", |run| run.equals().len() > 1 && run.equals()[0].0 > 0),
    ("equal totals, a greater word with fewer options", |run| {
        let equals = run.equals();
        equals.iter().any(|(_, word)| word.count_ones() < equals[0].1.count_ones())
    }),
    ("the smallest choice is not the cheapest", |run| {
        run.kept.iter().map(|(_, word)| word).min() < run.kept.first().map(|(_, word)| word)
    }),
    ("the greatest choice is the cheapest", |run| {
        run.kept.len() > 1
            && run.kept.iter().map(|(_, word)| word).max() == run.kept.first().map(|(_, word)| word)
    }),
    ("fewer options are not cheaper", |run| {
        let fitted = |kept: &(u64, u64)| kept.1.count_ones();
        run.kept.iter().any(|kept| fitted(kept) < fitted(&run.kept[0]) && kept.0 > run.kept[0].0)
    }),
    ("a total of 0 with free options fitted", |run| {
        run.has_quote(|quote| quote.total == 0 && quote.choice & run.all_free() != 0)
    }),
    ("all free options fitted", |run| {
        run.free.len() > 1 && run.has_quote(|quote| run.all_free() & !quote.choice == 0)
    }),
    ("no free option fitted", |run| {
        run.free.len() > 1 && run.has_quote(|quote| run.all_free() & quote.choice == 0)
    }),
    ("no rule", |run| run.is_of(|book| book.rules.is_empty())),
    ("the empty rule", |run| run.has_rule(|rule| options(rule) == 0)),
    ("1,024 rules and can", |run| run.has_quote(|_| run.is_of(is_full))),
    ("1,024 rules and cannot", |run| *run.quoted == Ok(None) && run.is_of(is_full)),
    ("a rule that the order breaks", |run| {
        run.has_rule(|rule| {
            options(rule) != 0 && options(rule) & run.all_free() == 0 && !run.keeps(rule)
        })
    }),
    ("a rule that the order keeps", |run| run.has_rule(|rule| run.keeps(rule))),
    ("a rule of all free options", |run| {
        run.free.len() > 3 && run.has_rule(|rule| run.all_free() & !options(rule) == 0)
    }),
];

/// The numbers of free options, by name: each that may be, where something can be built and where nothing can,
/// and those that are refused.
pub fn numbers() -> Vec<String> {
    let answered = (0..=FREE).flat_map(|free| [true, false].map(|can| answered_number(free, can)));
    let refused = [FREE + 1, FREE + 2].map(refused_number);
    answered.chain(refused).collect()
}

/// The number of free options by name; none where something else is refused.
pub fn number(run: &Run) -> Option<String> {
    let free = run.free.len();
    match run.quoted {
        Ok(quote) => Some(answered_number(free, quote.is_some())),
        Err(17) => Some(refused_number(free)),
        Err(_) => None,
    }
}

/// A number of free options with its verdict, by name.
fn answered_number(free: usize, can: bool) -> String {
    format!("{free} free, {}", if can { "can" } else { "cannot" })
}

/// A number of free options that is refused, by name.
fn refused_number(free: usize) -> String {
    match free == FREE + 1 {
        true => format!("{free} free"),
        false => "more free".to_string(),
    }
}

/// The options that a rule names.
fn options(rule: &Rule) -> u64 {
    rule.fitted | rule.left_out
}

fn is_full(book: &Book) -> bool {
    book.rules.len() == RULES
}

#[cfg(test)]
mod tests {
    use super::*;
    use crate::question::Cheapest;
    use optbook::bytes::book_bytes;
    use optbook::Order;

    /// A book of so many options with these rules and this order, at these prices and more of 0.
    fn asked(
        options: usize,
        rules: &[(u64, u64)],
        [wanted, unwanted, standard]: [u64; 3],
        prices: &[u64],
    ) -> Cheapest {
        let rules = rules.iter().map(|&(fitted, left_out)| Rule { fitted, left_out }).collect();
        let book = book_bytes(&Book { options, rules });
        let mut prices = prices.to_vec();
        prices.resize(OPTIONS.max(prices.len()), 0);
        Cheapest { book, order: Order { wanted, unwanted, standard }, prices, rebate: 0 }
    }

    /// The names of what comes up, the number of free options first.
    fn names(asked: &Cheapest) -> Vec<String> {
        let quoted = asked.port_quoted();
        let run = Run::new(asked, &quoted);
        let sorts = SORTS.iter().filter(|(_, is_such)| is_such(&run)).map(|(name, _)| *name);
        number(&run).into_iter().chain(sorts.map(str::to_string)).collect()
    }

    fn has(asked: &Cheapest, name: &str) -> bool {
        assert!(SORTS.iter().any(|(sort, _)| *sort == name), "{name}");
        names(asked).iter().any(|sort| sort == name)
    }

    const NONE: [u64; 3] = [0; 3];
    const BAD: [u64; 64] = [PRICE + 1; 64];

    #[test]
    fn refusals_are_sorted_by_what_stands_beside_them() {
        let of = |order, prices: &[u64]| names(&asked(30, &[], order, prices));
        assert_eq!(of([1 << 30, 0, 0], &[]), ["7 and too many free"]);
        assert_eq!(of([1, 1, 1 << 30], &BAD), ["8 and too many free", "8 and 18"]);
        assert_eq!(of([1, 2, 1 << 30], &BAD), ["12 and too many free", "12 and 18"]);
        assert_eq!(of([0, 1 << 30, 0], &BAD), ["7 and too many free", "7 and 18"]);
        assert_eq!(of(NONE, &BAD), ["more free", "17 and a bad price"]);
        assert_eq!(of([0x1ff, 0, 0], &[]), ["21 free"]);
        let few = Cheapest { prices: vec![0; 29], rebate: 1001, ..asked(30, &[], NONE, &[]) };
        assert_eq!(names(&few), ["more free", "17 and a bad rebate", "17 and too few prices"]);
        let refused = |book: &[u8], order: [u64; 3]| {
            names(&Cheapest { book: book.to_vec(), ..asked(0, &[], order, &BAD) })
        };
        let due = ["a refused book and a bad order", "a refused book and 18"];
        assert_eq!(refused(&[2, 0], [1, 1, 0]), due);
        assert_eq!(refused(&[], NONE), Vec::<String>::new());
    }

    #[test]
    fn bad_prices_are_sorted_by_their_options() {
        let of = |prices: &[u64]| names(&asked(3, &[], [0, 2, 0], prices));
        assert_eq!(of(&[PRICE + 2]), ["the first price too high"]);
        assert_eq!(of(&[0, PRICE + 2]), ["an unwanted option's price too high"]);
        assert_eq!(of(&[0, 0, PRICE + 1]), ["a price of 10,000,001", "the last price too high"]);
        let with = |rebate, count| {
            names(&Cheapest { rebate, prices: vec![0; count], ..asked(3, &[], NONE, &[]) })
        };
        assert_eq!(with(1001, 3), ["a rebate of 1,001"]);
        assert_eq!(with(1 << 33, 3), ["a rebate far too high"]);
        assert_eq!([with(0, 2), with(0, 0)], [["one price too few"], ["no price"]]);
    }

    #[test]
    fn amounts_due_are_sorted_by_their_remainders() {
        let due = |total, rebate, name| {
            has(&Cheapest { rebate, ..asked(1, &[(1, 0)], NONE, &[total]) }, name)
        };
        assert!(due(1, 500, "a half") && due(1, 500, "a half above an even number"));
        assert!(due(3, 500, "a half") && !due(3, 500, "a half above an even number"));
        assert!(due(1, 501, "less than a half") && due(1, 499, "more than a half"));
        assert!(!due(2, 500, "less than a half") && !due(2, 500, "more than a half"));
        assert!(due(5_000_000, 0, "2^32 thousandths and more"));
        assert!(!due(4_000_000, 0, "2^32 thousandths and more"));
    }

    /// Option 3 alone, or 1 and 2 together.
    #[test]
    fn choices_are_sorted_by_their_totals() {
        let of = |prices: &[u64], name| has(&asked(3, &[(5, 0), (6, 0)], NONE, prices), name);
        assert!(of(&[1, 2, 3], "equal totals, a greater word with fewer options"));
        assert!(of(&[1, 2, 3], "equal totals above 0") && !of(&[1, 2, 4], "equal totals"));
        assert!(of(&[0, 0, 0], "equal totals") && !of(&[0, 0, 0], "equal totals above 0"));
        assert!(of(&[1, 1, 3], "fewer options are not cheaper"));
        assert!(of(&[2, 2, 3], "the smallest choice is not the cheapest"));
        assert!(!of(&[1, 1, 3], "the smallest choice is not the cheapest"));
        assert!(of(&[0, 0, 3], "a total of 0 with free options fitted"));
        let both = asked(2, &[(1, 0), (2, 0)], NONE, &[1, 1]);
        assert!(has(&both, "one choice alone") && has(&both, "all free options fitted"));
        let second = |prices: &[u64]| {
            has(&asked(2, &[(3, 0), (0, 3)], NONE, prices), "the greatest choice is the cheapest")
        };
        assert!(second(&[2, 1]) && !second(&[1, 2]) && !second(&[1, 1]));
    }

    #[test]
    fn orders_and_books_are_sorted() {
        let due =
            ["0 free, can", "a price above n too high", "a rebate of 0", "no option", "no rule"];
        assert_eq!(names(&asked(0, &[], NONE, &[PRICE + 1])), due);
        let of_order = |order, name| has(&asked(3, &[(7, 0)], order, &[1, 1, 1]), name);
        assert!(of_order([1, 0, 0], "a wanted option costs"));
        assert!(of_order([0, 0, 1], "a standard option costs"));
        assert!(!of_order([0, 1, 1], "a standard option costs"));
        assert!(of_order([0, 1, 1], "an unwanted standard option would cost"));
        assert!(of_order([2, 0, 0], "few free options apart"));
        let of_rules = |rules: &[(u64, u64)], name| has(&asked(2, rules, [1, 2, 0], &[]), name);
        assert!(of_rules(&[(0, 0)], "the empty rule"));
        assert!(of_rules(&[(2, 1)], "a rule that the order breaks"));
        assert!(of_rules(&[(1, 2)], "a rule that the order keeps"));
        assert!(of_rules(&[(1, 0); 1024], "1,024 rules and can"));
        assert!(of_rules(&[(2, 0); 1024], "1,024 rules and cannot"));
    }
}
