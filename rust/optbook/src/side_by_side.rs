//! Two quotes on an order, side by side: at the prices as they are, and where one option has another price.

use crate::bill::{fitted, money, signed, sums, Priced};
use crate::table::{table, Row};
use crate::Order;

/// The two quotes, over options with these names, of which the one with this index has another price in the
/// second. What is marked on a bill is marked here, and after each sum stands how far it moved.
pub fn side_by_side(columns: [Priced; 2], index: usize, order: Order, names: &[String]) -> String {
    let [now, then] = columns.map(|column| money(column.prices.cents[index]));
    let question = format!("what if {} costs {then}; now it costs {now}\n", names[index]);

    let head = ["now", "what if"].map(str::to_string);
    let mut rows = vec![Row { label: String::new(), amounts: head, note: String::new() }];
    rows.extend(fitted(columns, order, names));

    let sums = sums(columns);
    let moves = sums.each_ref().map(|(_, [now, then])| moved(then - now).len());
    let width = moves.into_iter().max().unwrap_or(0);
    let sums = sums.map(|(label, [now, then])| {
        let note = format!("{:>width$}", moved(then - now));
        Row { label, amounts: [now, then].map(signed), note }
    });
    question + &table(&rows, &sums)
}

/// How far an amount moved, with its sign.
fn moved(cents: i64) -> String {
    let sign = if cents > 0 { "+" } else { "" };
    format!("{sign}{}", signed(cents))
}

#[cfg(test)]
mod tests {
    use super::*;
    use crate::engine::Quote;
    use crate::prices::Prices;

    /// A quote, as total, amount due and choice.
    type Sums = (u64, u64, u64);

    /// Two quotes over options with these names, of which the one with this index has a new price.
    fn of<const N: usize>(
        quotes: [Sums; 2],
        (index, price): (usize, u64),
        order: Order,
        (cents, rebate): ([u64; N], u64),
        names: [&str; N],
    ) -> String {
        let now = Prices { cents: cents.to_vec(), rebate };
        let mut then = now.clone();
        then.cents[index] = price;
        let [first, second] = quotes.map(|(total, due, choice)| Quote { total, due, choice });
        let columns =
            [Priced { quote: first, prices: &now }, Priced { quote: second, prices: &then }];
        side_by_side(columns, index, order, &names.map(str::to_string))
    }

    /// The sums of two quotes that fit nothing, and how far they moved.
    fn sums_of(quotes: [(u64, u64); 2], rebate: u64) -> String {
        let quotes = quotes.map(|(total, due)| (total, due, 0));
        let given = of(quotes, (0, 0), Order::default(), ([0], rebate), ["a"]);
        let (_, sums) = given.split_once("---\n").unwrap();
        sums.to_string()
    }

    /// The drum is wanted and the tank standard, and both choices have them. The headers are in the first
    /// alone and the main in the second alone; none has the roof. 690.00 + 80.00 + 30.00 is 800.00, and 790.00
    /// + 90.00 + 30.00 is 910.00; a tenth is taken off.
    #[test]
    fn an_option_stands_in_the_column_of_each_choice_that_fits_it() {
        let order = Order { wanted: 1, unwanted: 8, standard: 16 };
        let prices = ([69_000, 9_000, 8_000, 5_000, 3_000], 100);
        let names = ["drum", "main", "headers", "roof", "tank"];
        let quotes = [(80_000, 72_000, 21), (91_000, 81_900, 19)];
        let due = "what if drum costs 790.00; now it costs 690.00\n\
                   \x20                now  what if\n\
                   drum          690.00   790.00  wanted\n\
                   main               -    90.00\n\
                   headers        80.00        -\n\
                   tank           30.00    30.00  standard\n\
                   -----------------------------\n\
                   list total    800.00   910.00  +110.00\n\
                   rebate 10.0%  -80.00   -91.00   -11.00\n\
                   amount due    720.00   819.00   +99.00\n";
        assert_eq!(of(quotes, (0, 79_000), order, prices, names), due);
    }

    /// The new price is that of an option that the first choice alone has, and then of one that the second
    /// alone has.
    #[test]
    fn each_column_has_its_own_price_of_the_option() {
        let line = |quotes: [Sums; 2], index, name: &str| {
            let prices = ([100, 200], 0);
            let given = of(quotes, (index, 150), Order::default(), prices, ["a", "b"]);
            let start = format!("{name} ");
            given.lines().find(|line| line.starts_with(&start)).unwrap().to_string()
        };
        let [a, b] = [(100, 100, 1), (200, 200, 2)];
        assert_eq!(line([a, b], 0, "a"), "a            1.00        -");
        assert_eq!(line([b, a], 0, "a"), "a               -     1.50");
        assert_eq!(line([b, b], 1, "b"), "b            2.00     1.50");
        assert_eq!(line([b, b], 0, "b"), "b            2.00     2.00");
    }

    /// What the rebate takes off is below zero, so that it falls where more is taken off.
    #[test]
    fn each_sum_says_how_far_it_moved() {
        let rise = "list total     1.00   200.00  +199.00\n\
                    rebate 50.0%  -0.50  -100.00   -99.50\n\
                    amount due     0.50   100.00   +99.50\n";
        assert_eq!(sums_of([(100, 50), (20_000, 10_000)], 500), rise);
        let fall = "list total     200.00     1.00  -199.00\n\
                    rebate 50.0%  -100.00    -0.50   +99.50\n\
                    amount due     100.00     0.50   -99.50\n";
        assert_eq!(sums_of([(20_000, 10_000), (100, 50)], 500), fall);
        let stay = "list total    9.00     9.00  0.00\n\
                    rebate 0.1%  -0.01    -0.01  0.00\n\
                    amount due    8.99     8.99  0.00\n";
        assert_eq!(sums_of([(900, 899); 2], 1), stay);
        // of 3 and of 4 cents half is 2, rounded up
        let total_alone = "list total     0.03     0.04  +0.01\n\
                           rebate 50.0%  -0.01    -0.02  -0.01\n\
                           amount due     0.02     0.02   0.00\n";
        assert_eq!(sums_of([(3, 2), (4, 2)], 500), total_alone);
    }

    /// From nothing to the highest price, and back.
    #[test]
    fn each_column_has_its_own_width() {
        let [none, most] = [(0, 0, 1), (10_000_000, 10_000_000, 1)];
        let wide_second = "what if a costs 100000.00; now it costs 0.00\n\
                           \x20             now    what if\n\
                           a            0.00  100000.00\n\
                           ----------------------------\n\
                           list total   0.00  100000.00  +100000.00\n\
                           rebate 0.0%  0.00       0.00        0.00\n\
                           amount due   0.00  100000.00  +100000.00\n";
        let order = Order::default();
        assert_eq!(of([none, most], (0, 10_000_000), order, ([0], 0), ["a"]), wide_second);
        let wide_first = "what if a costs 0.00; now it costs 100000.00\n\
                          \x20                  now  what if\n\
                          a            100000.00     0.00\n\
                          -------------------------------\n\
                          list total   100000.00     0.00  -100000.00\n\
                          rebate 0.0%       0.00     0.00        0.00\n\
                          amount due   100000.00     0.00  -100000.00\n";
        assert_eq!(of([most, none], (0, 0), order, ([10_000_000], 0), ["a"]), wide_first);
    }

    #[test]
    fn where_neither_choice_fits_anything_nothing_is_due() {
        let due = "what if a costs 0.07; now it costs 0.09\n\
                   \x20             now  what if\n\
                   (none)\n\
                   --------------------------\n\
                   list total   0.00     0.00  0.00\n\
                   rebate 5.0%  0.00     0.00  0.00\n\
                   amount due   0.00     0.00  0.00\n";
        assert_eq!(of([(0, 0, 0); 2], (0, 7), Order::default(), ([9], 50), ["a"]), due);
    }

    /// One choice alone fits nothing: the other's option has a row.
    #[test]
    fn where_one_choice_fits_nothing_its_column_has_dashes() {
        let given = of([(5, 5, 1), (0, 0, 0)], (0, 9), Order::default(), ([5], 0), ["a"]);
        let rows: Vec<&str> = given.lines().skip(1).take(2).collect();
        assert_eq!(rows, ["              now  what if", "a            0.05        -"]);
        assert!(!given.contains("(none)"), "{given}");
    }
}
