//! `optbook worst`: the book on which a check takes the most that a book of so many options can.

use super::Verb;
use crate::arguments::Arguments;
use crate::ending::{Failure, Printed};
use crate::files::on_one_line;
use optbook::text::{numbered_names, write};
use optbook::worst::{all_rules, needs, MOST_OPTIONS};
use optbook::Order;

pub const VERB: Verb = Verb {
    name: "worst",
    takes: "OPTIONS",
    does: "writes the book of 1 to 10 options whose check takes the most branchings and derived rules",
    example: "optbook worst 3 | optbook check -",
    more: "\
The book has every rule that names all of its options, x1, x2 and so on: no choice keeps them all. With
an empty order a check takes 2^n - 1 branchings and derives as many rules, where n is the number of
OPTIONS, and no book of n options takes more. Both are proved, for every sequence of the rules.

  optbook worst 8 | optbook check - --allowance 254

stops, since one branching is missing. More than 10 options would be more rules than a book may have.

Exit status: 0; 64 bad command line, OPTIONS that are no number from 1 to 10 among them.
",
    files: (1, 1),
    flags: &[],
    repeated: &[],
    switches: &[],
    run,
};

fn run(arguments: &Arguments) -> Result<Printed, Failure> {
    let options = number(&arguments.files[0])?;
    let book = all_rules(options);
    let (rules, most) = (book.rules.len(), needs(options));
    let (named, branchings) = match options {
        1 => ("the one option".to_string(), "1 branching and derives 1 rule".to_string()),
        _ => (
            format!("all {options} options"),
            format!("{most} branchings and derives {most} rules"),
        ),
    };
    let head = format!(
        "# all {rules} rules that name {named}: no choice keeps every one of them\n\
         # with an empty order a check takes {branchings}\n"
    );
    Ok(Printed::text(head + &write(&numbered_names(options), &book, Order::default())))
}

/// The number of options in this word.
fn number(word: &str) -> Result<usize, Failure> {
    match word.parse() {
        Ok(options) if (1..=MOST_OPTIONS).contains(&options) => Ok(options),
        _ => {
            let expected = format!("expected a number of options from 1 to {MOST_OPTIONS}");
            Err(Failure::Usage(format!("`{}`: {expected}", on_one_line(word))))
        }
    }
}
