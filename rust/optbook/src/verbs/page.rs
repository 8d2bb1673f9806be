//! `optbook page`: the outcome of the proved check as a page for the file.

use super::Verb;
use crate::arguments::Arguments;
use crate::ending::{status_of, Failure, Printed};
use crate::files::read_sheet;
use optbook::engine::{page, Limits, Page};

pub const VERB: Verb = Verb {
    name: "page",
    takes: "BOOK [ORDER] [--allowance N]",
    does: "writes the outcome of a check as a page for the file, in lines of 40 characters",
    example: "optbook page examples/plant.book examples/plant_cannot.order",
    more: "\
The page is the one that the proved program optpage prints, and nothing else is printed, so that it
can be filed as it is. The first line has the answer (can, cannot, refused or stopped), the number of
the refusal or stop, the branchings and the number of derived rules. Then comes a line for each
derived rule, with its number and its options. The options stand there by their numbers, in the
sequence of the book's `options:` lines: `7` keeps the rule when option 7 is fitted, `-7` when it is
left out. A rule of more than 35 characters is shown by the number of its entries, and `none` is the
empty rule. docs/FORMAT.md has the page character by character.

--allowance N  stop where more than N branchings are due (1000000 if not given)

Exit status: 0 can be built, 1 cannot, 2 refused, 3 stopped; 64 bad command line, 65 a mistake in
BOOK or ORDER.
",
    files: (1, 2),
    flags: &[ALLOWANCE],
    repeated: &[],
    switches: &[],
    run,
};

const ALLOWANCE: &str = "--allowance";

fn run(arguments: &Arguments) -> Result<Printed, Failure> {
    let usual = Limits::default().allowance;
    let allowance = arguments.number(ALLOWANCE, 0..=u32::MAX)?.unwrap_or(usual);
    let sheet = read_sheet(&arguments.files)?;
    let Page { kind, text } = page(&sheet.book(), sheet.order(), allowance)?;
    Ok(Printed { bytes: text.into_bytes(), status: status_of(kind) })
}
