//! `optbook text`: the checker's bytes as a readable book and order.

use super::Verb;
use crate::arguments::Arguments;
use crate::ending::{Failure, Printed};
use crate::files::{mistake, read_bytes, read_names};
use optbook::bytes::read_input;
use optbook::text::write;

pub const VERB: Verb = Verb {
    name: "text",
    takes: "BYTES [--names BOOK]",
    does: "writes the checker's bytes as a readable book and order",
    example: "optbook bytes examples/plant.book | optbook text - --names examples/plant.book",
    more: "\
--names BOOK  name the options as this readable book does (x1, x2, ... if not given)

Exit status: 0; 64 bad command line, 65 a mistake in BYTES or BOOK.
",
    files: (1, 1),
    flags: &["--names"],
    repeated: &[],
    switches: &[],
    run,
};

fn run(arguments: &Arguments) -> Result<Printed, Failure> {
    let file = &arguments.files[0];
    let (order, book) = read_input(&read_bytes(file)?).map_err(|fault| mistake(file, fault))?;
    let names = read_names(arguments.value("--names"), book.options)?;
    Ok(Printed::text(write(&names, &book, order)))
}
