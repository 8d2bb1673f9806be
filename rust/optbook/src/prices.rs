//! Reading the prices of a book's options and a rebate, one thing a line:
//!
//! ```text
//! # what is to be paid
//! price: ring_main 9800.00
//! price: twin_header 725000
//! rebate: 2.5%
//! ```
//!
//! `price:` gives the price of an option, in cents, or with a point and two digits after it. Each option of
//! the book has one. `rebate:` gives the rebate, in thousandths, or as a percentage with at most one digit
//! after the point; without it there is none. `#` begins a comment. Whether a price or a rebate is in its
//! range is left to the library.

use crate::engine::{PRICE, REBATE};
use crate::mistake::{Mistake, Place};
use crate::number;
use crate::sheet::Sheet;

/// The price of each option in cents, in the book's sequence, and the rebate in thousandths.
#[derive(Clone, Debug, PartialEq, Eq)]
pub struct Prices {
    pub cents: Vec<u64>,
    pub rebate: u64,
}

impl Prices {
    /// The prices of a text, for the options of a sheet, or its first mistake. That options have no price is
    /// told at the last line.
    pub fn of(file: &str, text: &str, sheet: &Sheet) -> Result<Prices, Mistake> {
        let mut reader = Reader { sheet, cents: vec![None; sheet.names.len()], rebate: None };
        let mistake = |line, what| Mistake { place: Place { file: file.to_string(), line }, what };
        let mut last = 1;
        for (index, line) in text.lines().enumerate() {
            last = index + 1;
            let line = line.split('#').next().unwrap_or("").trim();
            reader.read_line(line).map_err(|what| mistake(last, what))?;
        }
        reader.finish().map_err(|what| mistake(last, what))
    }

    /// The index of the option with this name, and the prices where it alone has another, this amount.
    pub fn what_if(
        &self,
        sheet: &Sheet,
        name: &str,
        amount: &str,
    ) -> Result<(usize, Prices), String> {
        let index = number(sheet.find(name)?) as usize - 1;
        let mut prices = self.clone();
        prices.cents[index] = cents(amount)?;
        Ok((index, prices))
    }
}

/// What was read so far of prices for a sheet's options.
struct Reader<'a> {
    sheet: &'a Sheet,
    cents: Vec<Option<u64>>,
    rebate: Option<u64>,
}

impl Reader<'_> {
    fn read_line(&mut self, line: &str) -> Result<(), String> {
        if line.is_empty() {
            return Ok(());
        }
        let either = "expected `price: NAME AMOUNT` or `rebate: R`";
        let Some((word, rest)) = line.split_once(':') else {
            return Err(format!("`{line}` is neither a price nor a rebate: {either}"));
        };
        let rest: Vec<&str> = rest.split_whitespace().collect();
        match (word.trim(), rest.as_slice()) {
            ("price", [name, amount]) => self.read_price(name, amount),
            ("price", _) => Err(format!("`{line}` is no price: expected `price: NAME AMOUNT`")),
            ("rebate", [rebate]) => self.read_rebate(rebate),
            ("rebate", _) => Err(format!("`{line}` is no rebate: expected `rebate: R`")),
            (other, _) => Err(format!("`{other}:` is unknown: {either}")),
        }
    }

    fn read_price(&mut self, name: &str, amount: &str) -> Result<(), String> {
        let option = number(self.sheet.find(name)?);
        let price = &mut self.cents[option as usize - 1];
        if price.is_some() {
            return Err(format!("`{name}` is priced twice: expected it once"));
        }
        *price = Some(cents(amount)?);
        Ok(())
    }

    fn read_rebate(&mut self, rebate: &str) -> Result<(), String> {
        if self.rebate.is_some() {
            return Err("a second `rebate:` line: expected one".to_string());
        }
        self.rebate = Some(thousandths(rebate)?);
        Ok(())
    }

    fn finish(self) -> Result<Prices, String> {
        let priced = self.sheet.names.iter().zip(&self.cents);
        let missing = priced.filter(|(_, price)| price.is_none());
        let missing: Vec<&str> = missing.map(|(name, _)| name.as_str()).collect();
        if !missing.is_empty() {
            let expected = "expected a `price:` line for each option";
            return Err(format!(
                "the prices end without one for {}: {expected}",
                missing.join(" ")
            ));
        }
        let cents = self.cents.into_iter().flatten().collect();
        Ok(Prices { cents, rebate: self.rebate.unwrap_or(0) })
    }
}

/// The cents of an amount.
fn cents(amount: &str) -> Result<u64, String> {
    let Some(digits) = whole(amount).or_else(|| with_point(amount, 2)) else {
        let expected = "expected cents, as in 125000, or two digits after a point, as in 1250.00";
        return Err(format!("`{amount}` is no amount: {expected}"));
    };
    let most = format!("expected at most {PRICE} cents");
    digits.parse().map_err(|_| format!("`{amount}` does not fit 64 bits: {most}"))
}

/// The thousandths of a rebate.
fn thousandths(rebate: &str) -> Result<u64, String> {
    let digits = match rebate.strip_suffix('%') {
        Some(percent) => {
            let tenths = whole(percent).map(|digits| digits + "0");
            tenths.or_else(|| with_point(percent, 1))
        }
        None => whole(rebate),
    };
    let Some(digits) = digits else {
        let expected = "expected thousandths, as in 25, or a percentage, as in 2.5% or 3%";
        return Err(format!("`{rebate}` is no rebate: {expected}"));
    };
    let most = format!("expected at most {REBATE} thousandths");
    digits.parse().map_err(|_| format!("`{rebate}` does not fit 64 bits: {most}"))
}

/// The digits of a number that is digits alone.
fn whole(number: &str) -> Option<String> {
    let is_whole = !number.is_empty() && number.bytes().all(|byte| byte.is_ascii_digit());
    is_whole.then(|| number.to_string())
}

/// The digits of a number with a point and so many digits after it.
fn with_point(number: &str, places: usize) -> Option<String> {
    let (before, after) = number.split_once('.')?;
    let after = whole(after).filter(|digits| digits.len() == places)?;
    Some(whole(before)? + &after)
}

#[cfg(test)]
mod tests {
    use super::*;

    /// The prices of a text for the options a, b and `rebate`.
    fn read(text: &str) -> Result<(Vec<u64>, u64), String> {
        let sheet = Sheet::of("b", "options: a b rebate\n").unwrap();
        let prices = Prices::of("p", text, &sheet);
        prices.map(|prices| (prices.cents, prices.rebate)).map_err(|mistake| mistake.to_string())
    }

    #[test]
    fn prices_stand_in_any_sequence_and_come_in_the_books() {
        let text = "# what is to be paid\n\nprice: rebate 300\n price : b\t2.05 # each\n\
                    rebate: 25\nprice:a 0\n";
        assert_eq!(read(text), Ok((vec![0, 205, 300], 25)));
        let three = "price: a 1\nprice: b 2\nprice: rebate 3\n";
        assert_eq!(read(three), Ok((vec![1, 2, 3], 0)));
        assert_eq!(read(&three.replace('\n', "\r\n")), Ok((vec![1, 2, 3], 0)));
    }

    #[test]
    fn a_book_without_options_has_no_prices() {
        let none = Prices { cents: vec![], rebate: 0 };
        assert_eq!(Prices::of("p", "", &Sheet::default()), Ok(none));
    }

    #[test]
    fn an_amount_is_cents_or_has_two_digits_after_the_point() {
        let due = [
            ("0", 0),
            ("007", 7),
            ("125000", 125_000),
            ("1250.00", 125_000),
            ("0.05", 5),
            ("100000.01", 10_000_001),
            ("18446744073709551615", u64::MAX),
            ("184467440737095516.15", u64::MAX),
        ];
        for (amount, number) in due {
            assert_eq!(cents(amount), Ok(number), "{amount}");
        }
        for amount in [
            "", "-1", "+1", "1.5", "1.500", "1.", ".50", "1.5.0", "1.-5", "1,50", "1e3",
            "\u{0663}", "1_000", "5%",
        ] {
            let expected =
                "expected cents, as in 125000, or two digits after a point, as in 1250.00";
            assert_eq!(cents(amount), Err(format!("`{amount}` is no amount: {expected}")));
        }
        for amount in ["18446744073709551616", "184467440737095516.16", "99999999999999999999.00"] {
            let expected = "expected at most 10000000 cents";
            assert_eq!(cents(amount), Err(format!("`{amount}` does not fit 64 bits: {expected}")));
        }
    }

    #[test]
    fn a_rebate_is_thousandths_or_a_percentage() {
        let due = [
            ("0", 0),
            ("25", 25),
            ("2.5%", 25),
            ("3%", 30),
            ("0.1%", 1),
            ("100%", 1000),
            ("100.1%", 1001),
            ("1001", 1001),
            ("0%", 0),
        ];
        for (rebate, number) in due {
            assert_eq!(thousandths(rebate), Ok(number), "{rebate}");
        }
        for rebate in ["", "%", "2.5", "2.50%", "2.%", ".5%", "-1%", "2.5%%", "2,5%", "a"] {
            let expected = "expected thousandths, as in 25, or a percentage, as in 2.5% or 3%";
            assert_eq!(thousandths(rebate), Err(format!("`{rebate}` is no rebate: {expected}")));
        }
        for rebate in ["18446744073709551616", "1844674407370955162%", "1844674407370955161.6%"] {
            let expected = "expected at most 1000 thousandths";
            let due = format!("`{rebate}` does not fit 64 bits: {expected}");
            assert_eq!(thousandths(rebate), Err(due));
        }
    }

    #[test]
    fn each_mistake_has_its_place_and_what_was_expected() {
        let either = "expected `price: NAME AMOUNT` or `rebate: R`";
        let due = [
            ("price: c 1", "no option is named `c`: expected a name of an `options:` line"),
            ("price: b", "`price: b` is no price: expected `price: NAME AMOUNT`"),
            ("price:", "`price:` is no price: expected `price: NAME AMOUNT`"),
            ("price: b 1 2", "`price: b 1 2` is no price: expected `price: NAME AMOUNT`"),
            ("price: a 1", "`a` is priced twice: expected it once"),
            (
                "price: b 1.5 # each",
                "`1.5` is no amount: expected cents, as in 125000, or two digits after a point, as \
                 in 1250.00",
            ),
            ("rebate:", "`rebate:` is no rebate: expected `rebate: R`"),
            ("rebate: 2 %", "`rebate: 2 %` is no rebate: expected `rebate: R`"),
            (
                "rebate: 2.5",
                "`2.5` is no rebate: expected thousandths, as in 25, or a percentage, as in 2.5% \
                 or 3%",
            ),
            ("b 1", &format!("`b 1` is neither a price nor a rebate: {either}")),
            ("want: b", &format!("`want:` is unknown: {either}")),
            ("b: 1", &format!("`b:` is unknown: {either}")),
        ];
        for (line, what) in due {
            let read = read(&format!("price: a 1\n{line}\nwant: x\n"));
            assert_eq!(read, Err(format!("p: line 2: {what}")), "{line}");
        }
        let twice = read("rebate: 0\nprice: a 1\nrebate: 0\n");
        assert_eq!(twice, Err("p: line 3: a second `rebate:` line: expected one".to_string()));
    }

    #[test]
    fn what_if_gives_one_option_another_price() {
        let sheet = Sheet::of("b", "options: a b rebate\n").unwrap();
        let prices = |cents: [u64; 3]| Prices { cents: cents.to_vec(), rebate: 25 };
        let of = |name, amount| prices([1, 2, 3]).what_if(&sheet, name, amount);
        assert_eq!(of("a", "0"), Ok((0, prices([0, 2, 3]))));
        assert_eq!(of("b", "2"), Ok((1, prices([1, 2, 3]))));
        assert_eq!(of("rebate", "100000.01"), Ok((2, prices([1, 2, 10_000_001]))));
        let unknown = "no option is named `c`: expected a name of an `options:` line";
        assert_eq!(of("c", "1.5"), Err(unknown.to_string()));
        let expected = "expected letters, digits and underscores, with no digit first";
        let no_name = format!("`b ` is no option's name: {expected}");
        assert_eq!(of("b ", "1"), Err(no_name));
        for amount in ["1.5", "1=2", "-1", " 1", "1 "] {
            let expected =
                "expected cents, as in 125000, or two digits after a point, as in 1250.00";
            assert_eq!(of("b", amount), Err(format!("`{amount}` is no amount: {expected}")));
        }
        let large = "`18446744073709551616` does not fit 64 bits: expected at most 10000000 cents";
        assert_eq!(of("b", "18446744073709551616"), Err(large.to_string()));
    }

    #[test]
    fn options_without_a_price_are_told_at_the_last_line() {
        let without = |line, names| {
            let expected = "expected a `price:` line for each option";
            Err(format!("p: line {line}: the prices end without one for {names}: {expected}"))
        };
        assert_eq!(read(""), without(1, "a b rebate"));
        assert_eq!(read("rebate: 3\nprice: b 1\n\n"), without(3, "a rebate"));
        assert_eq!(read("price: b 1\nprice: a 0\nrebate: 3"), without(3, "rebate"));
    }
}
