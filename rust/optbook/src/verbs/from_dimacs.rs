//! `optbook from-dimacs`: a DIMACS CNF file as a readable book.

use super::Verb;
use crate::arguments::Arguments;
use crate::ending::{Failure, Printed};
use crate::files::{name, read_names, read_text};
use optbook::dimacs::read;
use optbook::text::write;
use optbook::Order;

pub const VERB: Verb = Verb {
    name: "from-dimacs",
    takes: "FILE [--names BOOK]",
    does: "writes a DIMACS CNF file of at most 64 variables and 1,024 clauses as a readable book",
    example:
        "optbook dimacs examples/plant.book | optbook from-dimacs - --names examples/plant.book",
    more: "\
Variable k is option k, and each clause is a rule. A clause with a variable and its negation is
always kept: it is left out, and a comment tells its line.

--names BOOK  name the options as this readable book does (x1, x2, ... if not given)

Exit status: 0; 64 bad command line, 65 a mistake in FILE or BOOK, or more than 64 variables or
1,024 clauses.
",
    files: (1, 1),
    flags: &["--names"],
    repeated: &[],
    switches: &[],
    run,
};

fn run(arguments: &Arguments) -> Result<Printed, Failure> {
    let file = &arguments.files[0];
    let clauses = read(name(file), &read_text(file)?)?;
    let names = read_names(arguments.value("--names"), clauses.book.options)?;
    let mut text = String::new();
    for line in &clauses.always_kept {
        text +=
            &format!("# left out, for it is always kept: the clause that ends on line {line}\n");
    }
    Ok(Printed::text(text + &write(&names, &clauses.book, Order::default())))
}
