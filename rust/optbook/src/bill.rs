//! What a plant costs, set out as on a bill: the fitted options with their prices, the list total, what the
//! rebate takes off, and the amount due.

use crate::engine::Quote;
use crate::prices::Prices;
use crate::table::{table, Row};
use crate::{option, Order};

/// A quote, and the prices at which it was asked for.
#[derive(Clone, Copy)]
pub struct Priced<'a> {
    pub quote: Quote,
    pub prices: &'a Prices,
}

/// The bill of a quote on an order, over options with these names. What the order wants, or has as standard,
/// is marked.
pub fn bill(priced: Priced, order: Order, names: &[String]) -> String {
    let row = |(label, cents): (String, [i64; 1])| Row {
        label,
        amounts: cents.map(signed),
        note: String::new(),
    };
    table(&fitted([priced], order, names), &sums([priced]).map(row))
}

/// A row for each option that some of these quotes fit, with its price, or a dash, in the column of each.
pub fn fitted<const COLUMNS: usize>(
    columns: [Priced; COLUMNS],
    order: Order,
    names: &[String],
) -> Vec<Row<COLUMNS>> {
    let row = |(index, name): (usize, &String)| {
        let amounts = columns.map(|Priced { quote, prices }| {
            (quote.choice & option(index) != 0).then(|| money(prices.cents[index]))
        });
        let is_fitted = amounts.iter().any(Option::is_some);
        is_fitted.then(|| Row {
            label: name.clone(),
            amounts: amounts.map(|amount| amount.unwrap_or("-".to_string())),
            note: mark(order, option(index)).to_string(),
        })
    };
    let mut rows: Vec<_> = names.iter().enumerate().filter_map(row).collect();
    if rows.is_empty() {
        let amounts = columns.map(|_| String::new());
        rows.push(Row { label: "(none)".to_string(), amounts, note: String::new() });
    }
    rows
}

/// The sums of these quotes in cents, each with its label: the list total, what the rebate takes off, and the
/// amount due. All of them have one rebate, and no quoted total is above that of 64 highest prices.
pub fn sums<const COLUMNS: usize>(columns: [Priced; COLUMNS]) -> [(String, [i64; COLUMNS]); 3] {
    let rebate = format!("rebate {}", percentage(columns[0].prices.rebate));
    let total = columns.map(|column| column.quote.total as i64);
    let due = columns.map(|column| column.quote.due as i64);
    let off = columns.map(|Priced { quote, .. }| -((quote.total - quote.due) as i64));
    [("list total".to_string(), total), (rebate, off), ("amount due".to_string(), due)]
}

/// How the order asks for an option that is fitted.
fn mark(order: Order, option: u64) -> &'static str {
    if order.wanted & option != 0 {
        "wanted"
    } else if order.standard & option != 0 {
        "standard"
    } else {
        ""
    }
}

/// An amount of cents, with a point before the last two digits.
pub fn money(cents: u64) -> String {
    format!("{}.{:02}", cents / 100, cents % 100)
}

/// An amount of cents that may be below zero.
pub fn signed(cents: i64) -> String {
    let sign = if cents < 0 { "-" } else { "" };
    format!("{sign}{}", money(cents.unsigned_abs()))
}

/// A rebate of thousandths, as a percentage.
pub fn percentage(rebate: u64) -> String {
    format!("{}.{}%", rebate / 10, rebate % 10)
}

#[cfg(test)]
mod tests {
    use super::*;

    fn order(wanted: u64, unwanted: u64, standard: u64) -> Order {
        Order { wanted, unwanted, standard }
    }

    /// The bill over options with these names.
    fn of<const N: usize>(
        (total, due, choice): (u64, u64, u64),
        order: Order,
        (cents, rebate): ([u64; N], u64),
        names: [&str; N],
    ) -> String {
        let prices = Prices { cents: cents.to_vec(), rebate };
        let priced = Priced { quote: Quote { total, due, choice }, prices: &prices };
        bill(priced, order, &names.map(str::to_string))
    }

    /// The drum is wanted, the tank wanted and standard, the roof comes by a rule, the screen is standard, and
    /// the hall is standard and unwanted. 2.5 % of 6120.20 is 153.005, and 5967.195 is rounded up.
    #[test]
    fn fitted_options_and_sums_stand_one_below_the_other() {
        let prices = ([500_000, 11_020, 9_999_999, 100_000, 1_000], 25);
        let names = ["drum", "tank", "hall", "leachate_roof", "screen"];
        let due = "drum           5000.00  wanted\n\
                   tank            110.20  wanted\n\
                   leachate_roof  1000.00\n\
                   screen           10.00  standard\n\
                   ----------------------\n\
                   list total     6120.20\n\
                   rebate 2.5%    -153.00\n\
                   amount due     5967.20\n";
        assert_eq!(of((612_020, 596_720, 27), order(3, 4, 22), prices, names), due);
    }

    /// 0.1 % of 9.00 is 0.009, and 8.991 is rounded down; of 0.01 it is less than half a cent.
    #[test]
    fn what_the_rebate_takes_off_is_the_total_less_the_amount_due() {
        let of_one = |total, due, rebate| {
            let given = of((total, due, 1), Order::default(), ([total], rebate), ["rebate"]);
            let (_, sums) = given.split_once("---\n").unwrap();
            sums.to_string()
        };
        let due = "list total    9.00\nrebate 0.1%  -0.01\namount due    8.99\n";
        assert_eq!(of_one(900, 899, 1), due);
        let due = "list total   0.01\nrebate 0.1%  0.00\namount due   0.01\n";
        assert_eq!(of_one(1, 1, 1), due);
        let due = "list total   9.00\nrebate 0.0%  0.00\namount due   9.00\n";
        assert_eq!(of_one(900, 900, 0), due);
        let due = "list total      9.00\nrebate 100.0%  -9.00\namount due      0.00\n";
        assert_eq!(of_one(900, 0, 1000), due);
    }

    #[test]
    fn where_nothing_is_fitted_nothing_is_due() {
        let due = "(none)\n\
                   -----------------\n\
                   list total   0.00\n\
                   rebate 5.0%  0.00\n\
                   amount due   0.00\n";
        assert_eq!(of((0, 0, 0), Order::default(), ([9], 50), ["a"]), due);
    }

    #[test]
    fn the_highest_amounts_keep_the_column() {
        let given = of(
            (20_000_000, 19_980_000, 3),
            Order::default(),
            ([10_000_000, 10_000_000], 1),
            ["a", "b"],
        );
        let due = "a            100000.00\n\
                   b            100000.00\n\
                   ----------------------\n\
                   list total   200000.00\n\
                   rebate 0.1%    -200.00\n\
                   amount due   199800.00\n";
        assert_eq!(given, due);
    }

    #[test]
    fn money_has_two_digits_after_the_point_and_a_percentage_one() {
        let amounts = [0, 5, 99, 100, 10_000_001].map(money);
        assert_eq!(amounts, ["0.00", "0.05", "0.99", "1.00", "100000.01"]);
        assert_eq!([0, 5, -5, -99, -100].map(signed), ["0.00", "0.05", "-0.05", "-0.99", "-1.00"]);
        assert_eq!(
            [0, 5, 25, 1000, 1001].map(percentage),
            ["0.0%", "0.5%", "2.5%", "100.0%", "100.1%"]
        );
    }
}
