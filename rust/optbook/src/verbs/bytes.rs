//! `optbook bytes`: a readable book and order as the checker's bytes.

use super::Verb;
use crate::arguments::Arguments;
use crate::ending::{Failure, Printed};
use crate::files::read_sheet;
use optbook::bytes::{book_bytes, input_bytes};

pub const VERB: Verb = Verb {
    name: "bytes",
    takes: "BOOK [ORDER]",
    does: "writes order and book as the bytes that the proved program reads",
    example: "optbook bytes examples/plant.book examples/plant.order | target/bin/optcheck",
    more: "\
docs/FORMAT.md has the bytes. `optbook text` turns them back.

Exit status: 0; 64 bad command line, 65 a mistake in BOOK or ORDER.
",
    files: (1, 2),
    flags: &[],
    repeated: &[],
    switches: &[],
    run,
};

fn run(arguments: &Arguments) -> Result<Printed, Failure> {
    let sheet = read_sheet(&arguments.files)?;
    Ok(Printed { bytes: input_bytes(sheet.order(), &book_bytes(&sheet.book())), status: 0 })
}
