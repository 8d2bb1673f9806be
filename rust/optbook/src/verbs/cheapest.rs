//! `optbook cheapest`: the plant with the least list total that keeps book and order, as a bill, or beside the
//! one that is the cheapest where one price is another. The library finds them, and the names and prices are
//! told here.

use super::Verb;
use crate::arguments::Arguments;
use crate::ending::{status_of, Failure, Printed};
use crate::files::{mistake, name, on_one_line, read_sheet, read_text};
use optbook::bill::{bill, money, percentage, Priced};
use optbook::engine::{cheapest, Kind, Quoted, PRICE, REBATE};
use optbook::outcome::{refusal, refusal_with_free, CANNOT};
use optbook::prices::Prices;
use optbook::side_by_side::side_by_side;
use optbook::{free, Order};

pub const VERB: Verb = Verb {
    name: "cheapest",
    takes: "BOOK ORDER PRICES [--what-if NAME=PRICE]",
    does: "finds the cheapest plant that keeps every rule of the book and the order, as a bill",
    example: "optbook cheapest examples/plant.book examples/plant.order examples/plant.prices",
    more: "\
PRICES is a text with a price for each option of BOOK, and a rebate or none, one thing a line:

  price: ring_main 9800.00                     # two digits after the point
  price: twin_header 725000                    # or in cents
  rebate: 2.5%                                 # or in thousandths, as 25

An option without a price is a mistake. ORDER may be an empty file.

The first line says whether the order can be built. Then come the options of the cheapest choice that
keeps every rule and wish, with their prices, and which of them the order wants or has as standard; the
list total, which is their sum; what the rebate takes off; and the amount due, halves rounded up to the
cent. Of two choices with the same list total the last option in which they differ decides, in the
sequence of the book's `options:` lines: the one without it is taken.

--what-if NAME=PRICE  show beside it the cheapest choice where the option NAME costs PRICE

PRICE is an amount as in PRICES, more than the option costs there or less. Each choice has a column then,
in which the options that it leaves out have `-`, and after each sum stands how far it moved. Where a
price rises, the list total and the amount due never fall, and never rise by more than it.

No allowance is needed. More than 20 free options, which are neither wanted nor unwanted, are refused
(number 17), and so is a price above 100000.00 or a rebate above 100% (number 18).

Exit status: 0 can be built, 1 cannot, 2 refused; 64 bad command line, 65 a mistake in BOOK, ORDER,
PRICES or NAME=PRICE.
",
    files: (3, 3),
    flags: &[WHAT_IF],
    repeated: &[],
    switches: &[],
    run,
};

const WHAT_IF: &str = "--what-if";

/// How it ends where there is such a choice.
const CAN: &str =
    "can be built: no choice of options that keeps every rule and wish costs less than this one";

/// How it ends where there are two of them.
const CAN_EACH: &str =
    "can be built: at the prices of each column, no choice of options that keeps every rule and wish \
     costs less than the one in it";

/// The prices at which the library was asked, and what it said.
struct Asked {
    prices: Prices,
    quoted: Quoted,
}

fn run(arguments: &Arguments) -> Result<Printed, Failure> {
    let what_if = arguments.value(WHAT_IF).map(name_and_price).transpose()?;
    let (files, prices) = arguments.files.split_at(2);
    let sheet = read_sheet(files)?;
    let prices = Prices::of(name(&prices[0]), &read_text(&prices[0])?, &sheet)?;
    let what_if = what_if.map(|(name, price)| prices.what_if(&sheet, name, price)).transpose();
    let what_if = what_if.map_err(|what| mistake(WHAT_IF, on_one_line(what)))?;

    let (book, order, names) = (sheet.book(), sheet.order(), &sheet.names);
    let ask =
        |prices: Prices| cheapest(&book, order, &prices).map(|quoted| Asked { prices, quoted });
    let now = ask(prices)?;
    Ok(match what_if {
        Some((index, prices)) => told_both(&now, &ask(prices)?, index, order, names),
        None => told(&now, order, names),
    })
}

/// The name and the price in the word after the flag.
fn name_and_price(word: &str) -> Result<(&str, &str), Failure> {
    match word.split_once('=') {
        Some((name, price)) if !name.is_empty() && !price.is_empty() => Ok((name, price)),
        _ => {
            let expected = "expected NAME=PRICE, an option and what it would cost";
            Err(Failure::Usage(format!("`{WHAT_IF} {}`: {expected}", on_one_line(word))))
        }
    }
}

/// What is printed: the verdict, with the bill of the choice; or the refusal, with what it is about.
fn told(asked: &Asked, order: Order, names: &[String]) -> Printed {
    let Asked { prices, quoted } = asked;
    let (text, kind) = match *quoted {
        Ok(Some(quote)) => {
            (format!("{CAN}\n{}", bill(Priced { quote, prices }, order, names)), Kind::Can)
        }
        Ok(None) => (format!("{CANNOT}\n"), Kind::Cannot),
        Err(17) => {
            let free = free(order, names.len());
            (refusal_with_free(17, free, names) + "\n", Kind::Refused)
        }
        Err(18) => (format!("{}\n{}", refusal(18), outside(prices, names)), Kind::Refused),
        Err(number) => (refusal(number) + "\n", Kind::Refused),
    };
    Printed { bytes: text.into_bytes(), status: status_of(kind) }
}

/// What is printed where the option with this index has another price the second time: both choices side by
/// side, or a refusal, that of the first question before that of the second, or that the order cannot be built.
fn told_both(now: &Asked, then: &Asked, index: usize, order: Order, names: &[String]) -> Printed {
    match (now.quoted, then.quoted) {
        (Ok(Some(quote)), Ok(Some(other))) => {
            let columns = [(quote, now), (other, then)]
                .map(|(quote, Asked { prices, .. })| Priced { quote, prices });
            Printed::text(format!("{CAN_EACH}\n{}", side_by_side(columns, index, order, names)))
        }
        (Ok(_), _) => told(then, order, names),
        (Err(_), _) => told(now, order, names),
    }
}

/// The prices and the rebate that are outside their range, as lines of PRICES.
fn outside(prices: &Prices, names: &[String]) -> String {
    let priced = names.iter().zip(&prices.cents).filter(|(_, &cents)| cents > PRICE);
    let mut lines: String =
        priced.map(|(name, &cents)| format!("price: {name} {}\n", money(cents))).collect();
    if prices.rebate > REBATE {
        lines += &format!("rebate: {}\n", percentage(prices.rebate));
    }
    lines
}

#[cfg(test)]
mod tests {
    use super::*;
    use optbook::engine::Quote;
    use optbook::text::numbered_names;

    /// Of options x1, x2, ... with these prices.
    fn text_and_status(
        quoted: Quoted,
        words: [u64; 3],
        cents: &[u64],
        rebate: u64,
    ) -> (String, i32) {
        let [wanted, unwanted, standard] = words;
        let order = Order { wanted, unwanted, standard };
        let prices = Prices { cents: cents.to_vec(), rebate };
        let names = numbered_names(cents.len());
        let Printed { bytes, status } = told(&Asked { prices, quoted }, order, &names);
        (String::from_utf8(bytes).unwrap(), status)
    }

    #[test]
    fn the_bill_stands_below_the_verdict() {
        let quote = Quote { total: 120, due: 60, choice: 5 };
        let due =
            "can be built: no choice of options that keeps every rule and wish costs less than \
                   this one\n\
                   x1             1.00  wanted\n\
                   x3             0.20\n\
                   -------------------\n\
                   list total     1.20\n\
                   rebate 50.0%  -0.60\n\
                   amount due     0.60\n";
        let told = text_and_status(Ok(Some(quote)), [1, 0, 2], &[100, 7, 20], 500);
        assert_eq!(told, (due.to_string(), 0));
    }

    #[test]
    fn where_there_is_none_it_is_told_as_a_check_tells_it() {
        let due = "cannot be built: no choice of options keeps every rule and wish\n";
        assert_eq!(text_and_status(Ok(None), [1, 0, 0], &[7], 0), (due.to_string(), 1));
    }

    #[test]
    fn a_refusal_is_told_with_what_it_is_about() {
        let due = "refused, number 17: more than 20 options are free: 21\n\
                   free: x2 x4 x5 x6 x7 x8 x9 x10 x11 x12 x13 x14 x15 x16 x17 x18 x19 x20 x21 x22 \
                   x23\n";
        assert_eq!(text_and_status(Err(17), [1, 0, 4], &[0; 23], 0), (due.to_string(), 2));
        let eighteen = "refused, number 18: a price is missing or above 10,000,000 cents, or the \
                        rebate is above 1,000 thousandths\n";
        let of = |cents: &[u64], rebate| text_and_status(Err(18), [0; 3], cents, rebate);
        let due = format!("{eighteen}price: x2 100000.01\nprice: x3 100000.02\n");
        assert_eq!(of(&[10_000_000, 10_000_001, 10_000_002], 1_000), (due, 2));
        assert_eq!(of(&[10_000_000], 1_001), (format!("{eighteen}rebate: 100.1%\n"), 2));
        let due = "refused, number 12: a standard option is above the book's last\n";
        assert_eq!(text_and_status(Err(12), [0; 3], &[0], 0), (due.to_string(), 2));
    }

    #[test]
    fn the_word_after_the_flag_is_a_name_and_a_price() {
        assert_eq!(name_and_price("drum=68000.00").ok(), Some(("drum", "68000.00")));
        assert_eq!(name_and_price("a=b=c").ok(), Some(("a", "b=c")));
        assert_eq!(name_and_price(" = ").ok(), Some((" ", " ")));
        for word in ["drum", "drum=", "=7", "=", "", "7"] {
            let failure = name_and_price(word).err().unwrap();
            let expected = "expected NAME=PRICE, an option and what it would cost";
            let due = format!("`--what-if {word}`: {expected}");
            assert_eq!((failure.to_string(), failure.status()), (due, 64));
        }
        let failure = name_and_price("a\nb\u{1b}").err().unwrap();
        assert!(failure.to_string().starts_with("`--what-if a?b?`: "), "{failure}");
    }

    /// Of x1 for 1.00, which is wanted, and x2 for 0.07, which costs so many cents the second time.
    fn both(now: Quoted, then: Quoted, price: u64) -> (String, i32) {
        let asked = |quoted, other| {
            let prices = Prices { cents: vec![100, other], rebate: 0 };
            Asked { prices, quoted }
        };
        let order = Order { wanted: 1, unwanted: 0, standard: 0 };
        let names = numbered_names(2);
        let Printed { bytes, status } =
            told_both(&asked(now, 7), &asked(then, price), 1, order, &names);
        (String::from_utf8(bytes).unwrap(), status)
    }

    #[test]
    fn two_quotes_stand_side_by_side_below_the_verdict() {
        let [first, second] = [(107, 3), (100, 1)]
            .map(|(total, choice)| Ok(Some(Quote { total, due: total, choice })));
        let due = "can be built: at the prices of each column, no choice of options that keeps \
                   every rule and wish costs less than the one in it\n\
                   what if x2 costs 0.09; now it costs 0.07\n\
                   \x20             now  what if\n\
                   x1           1.00     1.00  wanted\n\
                   x2           0.07        -\n\
                   --------------------------\n\
                   list total   1.07     1.00  -0.07\n\
                   rebate 0.0%  0.00     0.00   0.00\n\
                   amount due   1.07     1.00  -0.07\n";
        assert_eq!(both(first, second, 9), (due.to_string(), 0));
    }

    /// The new price alone is told where it alone is refused.
    #[test]
    fn where_there_are_no_two_quotes_one_question_is_told() {
        let quote = Ok(Some(Quote { total: 100, due: 100, choice: 1 }));
        let cannot = "cannot be built: no choice of options keeps every rule and wish\n";
        assert_eq!(both(Ok(None), Ok(None), 9), (cannot.to_string(), 1));
        let eighteen = "refused, number 18: a price is missing or above 10,000,000 cents, or the \
                        rebate is above 1,000 thousandths\nprice: x2 100000.01\n";
        assert_eq!(both(quote, Err(18), 10_000_001), (eighteen.to_string(), 2));
        assert_eq!(both(Ok(None), Err(18), 10_000_001), (eighteen.to_string(), 2));
        let twelve = "refused, number 12: a standard option is above the book's last\n";
        assert_eq!(both(Err(12), Err(12), 9), (twelve.to_string(), 2));
        assert_eq!(both(Err(12), quote, 9), (twelve.to_string(), 2));
    }
}
