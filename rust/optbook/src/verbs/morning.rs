//! `optbook morning`: the proved verdicts on several orders of one book, in one call of the library.

use super::check::{limits, LIMITS};
use super::Verb;
use crate::arguments::{Arguments, ANY};
use crate::ending::{status_of, Failure, Printed};
use crate::files::{name, on_one_line, read_orders};
use optbook::engine::{morning, Checked, Kind, Morning};
use optbook::outcome::in_words;

pub const VERB: Verb = Verb {
    name: "morning",
    takes: "BOOK ORDERS... [--allowance N] [--places N]",
    does: "checks 1 to 16 orders against one book, each as `check` does",
    example: "optbook morning examples/plant.book examples/plant.order examples/plant_cannot.order",
    more: "\
Each of ORDERS is read after BOOK, as by `optbook check BOOK ORDER`: standard options and wishes that
stand in BOOK hold for every order. Options and rules stand in BOOK alone. For each order a line has
the file's name, and then comes what `optbook check` prints. A refused order does not hold up the
next; with no order, or more than 16, all is refused (number 13).

--allowance N, --places N  as of `optbook check`, for each order

Exit status: 0 all orders can be built, else the highest of the orders: 1 cannot, 2 refused,
3 stopped; 64 bad command line, 65 a mistake in BOOK or ORDERS.
",
    files: (1, ANY),
    flags: &LIMITS,
    repeated: &[],
    switches: &[],
    run,
};

fn run(arguments: &Arguments) -> Result<Printed, Failure> {
    let limits = limits(arguments)?;
    let (sheet, orders) = read_orders(&arguments.files)?;
    let morning = morning(&sheet.book(), &orders, limits)?;
    Ok(told(&arguments.files[1..], &morning, &sheet.names))
}

/// What is printed of a morning: each order's outcome under the name of its file, or the refusal of
/// all of them. The status is the highest.
fn told(files: &[String], morning: &Morning, names: &[String]) -> Printed {
    let (mut text, mut kinds) = (String::new(), Vec::new());
    match morning {
        Ok(checked) => {
            for (file, checked) in files.iter().zip(checked) {
                text += &format!("order: {}\n", on_one_line(name(file)));
                text += &in_words(checked, names);
                kinds.push(checked.answer.kind);
            }
        }
        Err(number) => {
            text += &in_words(&Checked::refused(*number), names);
            kinds.push(Kind::Refused);
        }
    }
    let status = kinds.into_iter().map(status_of).max().unwrap_or(0);
    Printed { bytes: text.into_bytes(), status }
}

#[cfg(test)]
mod tests {
    use super::*;
    use optbook::engine::{Answer, Record};

    fn checked(kind: Kind, number: u32, records: Vec<Record>) -> Checked {
        let answer = Answer { kind, number, branchings: 2, derived: 0, records: records.len() };
        Checked { answer, derived: Vec::new(), records }
    }

    fn text_and_status(files: &[&str], morning: &Morning) -> (String, i32) {
        let [files, names] =
            [files, &["a", "b"]].map(|words| words.iter().map(ToString::to_string));
        let (files, names): (Vec<String>, Vec<String>) = (files.collect(), names.collect());
        let Printed { bytes, status } = told(&files, morning, &names);
        (String::from_utf8(bytes).unwrap(), status)
    }

    #[test]
    fn each_order_is_told_under_its_files_name() {
        let record = Record { decided: 1, fitted: 1, struck: 2 };
        let morning =
            Ok(vec![checked(Kind::Stopped, 10, vec![record]), checked(Kind::Can, 0, vec![])]);
        let due = "order: an?order\n\
                   stopped without a verdict, number 10: another branching is due and the allowance \
                   is spent\n\
                   branchings 2, derived rules 0, records 1\n\
                   record: fitted a; left out (none); struck b\n\
                   order: standard input\n\
                   can be built: some choice of options keeps every rule and wish\n\
                   branchings 2, derived rules 0, records 0\n";
        assert_eq!(text_and_status(&["an\norder", "-"], &morning), (due.to_string(), 3));
    }

    #[test]
    fn the_status_is_the_highest() {
        let status = |kinds: &[Kind]| {
            let morning = Ok(kinds.iter().map(|&kind| checked(kind, 0, vec![])).collect());
            text_and_status(&vec!["o"; kinds.len()], &morning).1
        };
        assert_eq!(status(&[Kind::Can, Kind::Can]), 0);
        assert_eq!(status(&[Kind::Can, Kind::Cannot, Kind::Can]), 1);
        assert_eq!(status(&[Kind::Refused, Kind::Cannot]), 2);
        assert_eq!(status(&[Kind::Stopped, Kind::Refused, Kind::Can]), 3);
    }

    #[test]
    fn a_refused_morning_is_told_once() {
        let due = "refused, number 13: the number of orders is not 1 to 16\n\
                   branchings 0, derived rules 0, records 0\n";
        assert_eq!(text_and_status(&["o"; 17], &Err(13)), (due.to_string(), 2));
        assert_eq!(text_and_status(&[], &Err(13)), (due.to_string(), 2));
    }
}
