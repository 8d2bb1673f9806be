//! The verbs. A verb is a file here with its `VERB`, and a line in `VERBS`.

mod bytes;
mod cheapest;
mod check;
mod desk;
mod dimacs;
mod explain;
mod from_dimacs;
mod join;
mod morning;
mod open;
mod page;
mod renumber;
mod sites;
mod text;
mod turns;
mod worst;

use crate::arguments::{Arguments, Files};
use crate::ending::{Failure, Printed};

/// All verbs, in the order in which the help tells them.
#[rustfmt::skip]
pub const VERBS: &[Verb] = &[
    check::VERB,
    morning::VERB,
    open::VERB,
    sites::VERB,
    explain::VERB,
    page::VERB,
    desk::VERB,
    join::VERB,
    renumber::VERB,
    turns::VERB,
    cheapest::VERB,
    worst::VERB,
    bytes::VERB,
    text::VERB,
    dimacs::VERB,
    from_dimacs::VERB,
];

/// A verb: its name, what may follow it, what it does in one line, an example, the rest of its help,
/// how many files it takes, the flags that it knows, those that may be repeated, the switches, and how it
/// runs.
pub struct Verb {
    pub name: &'static str,
    pub takes: &'static str,
    pub does: &'static str,
    pub example: &'static str,
    pub more: &'static str,
    pub files: Files,
    pub flags: &'static [&'static str],
    pub repeated: &'static [&'static str],
    pub switches: &'static [&'static str],
    pub run: fn(&Arguments) -> Result<Printed, Failure>,
}

impl Verb {
    pub fn usage(&self) -> String {
        format!("optbook {} {}", self.name, self.takes)
    }

    pub fn help(&self) -> String {
        let Verb { does, example, more, .. } = self;
        format!("{}\n\n{does}, as in\n\n  {example}\n\n{more}", self.usage())
    }
}

/// The flags and files of a verb that checks.
const CHECKS: &str = "BOOK [ORDER] [--allowance N] [--places N]";

/// The help of the tool: the verbs with an example each, the readable form, the statuses.
pub fn help() -> String {
    let mut text = "optbook: option books and orders in readable form, over the proved checker\n\n"
        .to_string();
    for verb in VERBS {
        let Verb { does, example, .. } = verb;
        text += &format!("  {}\n      {does}, as in\n      {example}\n", verb.usage());
    }
    text + FORM
}

const FORM: &str = "
BOOK and ORDER are readable texts, which are read one after the other; - is standard input. ORDERS
are several such texts, each read after BOOK, and NAMES are names of options; FILE of desk has commands.
FIRST and SECOND of join are two books, and PAIRS are NAME=NAME, a name of the one and one of the other.
NAME=NEW of renumber is an option that is reversed and its new name: to fit NEW is to leave NAME out.
OPTIONS of worst is how many options there are.
PRICES of cheapest is a text of prices, as its help shows, and NAME=PRICE an option and what it would cost.
`optbook VERB --help` tells more of a verb. A text has one thing a line:

  options: ring_main twin_header third_vessel
  ring_main | twin_header | !third_vessel      # a rule; ! says left out
  standard: twin_header                        # wanted, unless the order is without it
  want: ring_main
  without: third_vessel

Exit status: check, explain, page and cheapest end with 0 where the order can be built, 1 where it cannot, 2
where it is refused, 3 where it stops without a verdict, and morning and sites with the highest of their
orders; open with 0 where every setting can be built, 1 where none can, 2 and 3 likewise, and 4 where some
can but not all; join with 2 where the joint book is refused; turns with 0 where the planner can force it, 1
where not, and 2 where it is refused; and else the other verbs with 0. All end with 64 on a bad command line,
with 65 where what is read has a mistake or cannot be read, and with 74 where the output cannot be written.
desk goes on after a mistake in its commands: at a terminal it ends with 0, and otherwise then with 65.
";
