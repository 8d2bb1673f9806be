//! `optbook check`: the proved verdict on an order, with what was derived and recorded.

use super::{Verb, CHECKS};
use crate::arguments::Arguments;
use crate::ending::{status_of, Failure, Printed};
use crate::files::read_sheet;
use optbook::engine::{check, Limits};
use optbook::outcome::in_words;

pub const VERB: Verb = Verb {
    name: "check",
    takes: CHECKS,
    does: "says whether some choice of options keeps every rule of the book and the order",
    example: "optbook check examples/plant.book examples/plant.order",
    more: "\
The first line is the verdict, the second the counts. Then come the derived rules, which follow from
book and order, and the records: decided options that are fitted or left out, and struck options,
which then need no further look. The decided options of a record are not a choice that can be built.

--allowance N  stop where more than N branchings are due (1000000 if not given)
--places N     stop where more than N derived rules are due (2048 if not given, which is the most;
               more are refused)

Exit status: 0 can be built, 1 cannot, 2 refused, 3 stopped; 64 bad command line, 65 a mistake in
BOOK or ORDER.
",
    files: (1, 2),
    flags: &LIMITS,
    repeated: &[],
    switches: &[],
    run,
};

/// The flags of a verb that checks.
pub const LIMITS: [&str; 2] = ["--allowance", "--places"];

/// The limits that the flags give.
pub fn limits(arguments: &Arguments) -> Result<Limits, Failure> {
    let [allowance, places] = LIMITS;
    let usual = Limits::default();
    let allowance = arguments.number(allowance, 0..=u32::MAX)?.unwrap_or(usual.allowance);
    let places = arguments.number(places, 0..=65535)?.map_or(usual.places, |n| n as usize);
    Ok(Limits { allowance, places })
}

fn run(arguments: &Arguments) -> Result<Printed, Failure> {
    let limits = limits(arguments)?;
    let sheet = read_sheet(&arguments.files)?;
    let checked = check(&sheet.book(), sheet.order(), limits)?;
    let told = in_words(&checked, &sheet.names);
    Ok(Printed { bytes: told.into_bytes(), status: status_of(checked.answer.kind) })
}
