//! `optbook dimacs`: a readable book and order in DIMACS CNF.

use super::Verb;
use crate::arguments::Arguments;
use crate::ending::{Failure, Printed};
use crate::files::read_sheet;
use optbook::dimacs::write;

pub const VERB: Verb = Verb {
    name: "dimacs",
    takes: "BOOK [ORDER]",
    does: "writes book and order in DIMACS CNF, for the field's solvers",
    example: "optbook dimacs examples/plant.book examples/plant.order | picosat",
    more: "\
Option k is variable k, and comments tell its name. Each rule is a clause, and then each wish. A
standard option that is not unwanted is a wish.

Exit status: 0; 64 bad command line, 65 a mistake in BOOK or ORDER.
",
    files: (1, 2),
    flags: &[],
    repeated: &[],
    switches: &[],
    run,
};

fn run(arguments: &Arguments) -> Result<Printed, Failure> {
    let sheet = read_sheet(&arguments.files)?;
    let mut text = String::new();
    for (index, name) in sheet.names.iter().enumerate() {
        text += &format!("c {} is {name}\n", index + 1);
    }
    Ok(Printed::text(text + &write(&sheet.book(), sheet.order())))
}
