//! `optbook explain`: why an order cannot be built, as a readable book with the lines that it is
//! made of. It can itself be checked, so that nobody need trust this tool.

use super::check::{limits, LIMITS};
use super::{Verb, CHECKS};
use crate::arguments::Arguments;
use crate::ending::{status_of, Failure, Printed};
use crate::files::{on_one_line, read_sheet};
use optbook::engine::{check, Answer, Kind, Limits, Unlinked};
use optbook::explain::{smallest, Kept};
use optbook::mistake::Place;
use optbook::outcome::ending;
use optbook::sheet::{order, rules, Demand, Sheet};
use optbook::text::{commented, demand_text, set_names};
use optbook::Book;

pub const VERB: Verb = Verb {
    name: "explain",
    takes: CHECKS,
    does: "says why an order cannot be built: rules and wishes that cannot be kept together",
    example: "optbook explain examples/plant.book examples/plant_cannot.order",
    more: "\
What it prints is a readable book, each line with its place in BOOK or ORDER: the rules, standard
options and wishes that cannot be kept together. Without any one of them the others can: they were
left out one after the other, and each time the rest was checked by the proved checker. There may be
other such sets. A standard option that is also wanted stands there as wanted, and one that is
unwanted as unwanted. To check the answer, check it as a book:

  optbook explain BOOK ORDER | optbook check -

--allowance N, --places N  as of `optbook check`, for each check. Where a check stops, what was left
                           out stays, and its line says that it may not be needed

Exit status: 0 can be built, so there is nothing to explain; 1 cannot; 2 refused, 3 stopped before
a verdict; 64 bad command line, 65 a mistake in BOOK or ORDER.
",
    files: (1, 2),
    flags: &LIMITS,
    repeated: &[],
    switches: &[],
    run,
};

fn run(arguments: &Arguments) -> Result<Printed, Failure> {
    let limits = limits(arguments)?;
    let sheet = read_sheet(&arguments.files)?;
    let demands = sheet.completed_demands();
    let answer = checked(&sheet, &demands, limits)?;
    let told = match answer.kind {
        Kind::Cannot => {
            let again = |rest: &[_]| checked(&sheet, rest, limits).map(|answer| answer.kind);
            told(&sheet, &smallest(&demands, again)?)
        }
        Kind::Can | Kind::Refused | Kind::Stopped => format!("{}\n", ending(answer)),
    };
    Ok(Printed { bytes: told.into_bytes(), status: status_of(answer.kind) })
}

/// The proved answer to these demands alone.
fn checked(
    sheet: &Sheet,
    demands: &[&(Demand, Place)],
    limits: Limits,
) -> Result<Answer, Unlinked> {
    let demands = || demands.iter().map(|(demand, _)| demand);
    let book = Book { options: sheet.names.len(), rules: rules(demands()) };
    Ok(check(&book, order(demands()), limits)?.answer)
}

/// What stayed, as a readable book.
fn told(sheet: &Sheet, kept: &[Kept<&(Demand, Place)>]) -> String {
    let mut text = "# cannot be built: no choice of options keeps all of these\n".to_string();
    text += match kept.iter().all(|kept| kept.needed) {
        true => "# without any one of them the others can be kept\n",
        false => "# without one of them the others can be kept, but for those marked\n",
    };
    let named = kept.iter().fold(0, |set, kept| set | options(kept.demand.0));
    text += &format!("options: {}\n", set_names(named, &sheet.names).join(" "));
    let line = |kept: &Kept<&(Demand, Place)>| {
        let mark = if kept.needed { "" } else { " (may not be needed: a check stopped)" };
        let (demand, place) = kept.demand;
        (demand_text(*demand, &sheet.names), format!("{}{mark}", on_one_line(place)))
    };
    text + &commented(&kept.iter().map(line).collect::<Vec<_>>())
}

fn options(demand: Demand) -> u64 {
    match demand {
        Demand::Rule(rule) => rule.fitted | rule.left_out,
        Demand::Standard(option) | Demand::Want(option) | Demand::Without(option) => option,
    }
}

#[cfg(test)]
mod tests {
    use super::*;

    #[test]
    fn what_stayed_is_a_readable_book_with_places() {
        let mut sheet = Sheet::of("b", "options: a b c\n!a | !b\nstandard: c b\n").unwrap();
        sheet.read("o", "want: a\n").unwrap();
        let all = sheet.completed_demands();
        let kept: Vec<_> = [0, 2, 3].map(|i| Kept { demand: all[i], needed: i != 2 }).into();
        let due = "# cannot be built: no choice of options keeps all of these\n\
                   # without one of them the others can be kept, but for those marked\n\
                   options: a b\n\
                   !a | !b      # b: line 2\n\
                   standard: b  # b: line 3 (may not be needed: a check stopped)\n\
                   want: a      # o: line 1\n";
        let text = told(&sheet, &kept);
        assert_eq!(text, due);
        let order = Sheet::of("text", &text).unwrap().order();
        assert_eq!((order.wanted, order.unwanted, order.standard), (1, 0, 2));
    }
}
