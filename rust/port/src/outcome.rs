//! What a check ends with, and how it is printed.

use crate::words::{Record, Rule};
use std::fmt;

/// The verdict, or a refusal or a stop by its number.
#[derive(Clone, Copy, Debug, PartialEq, Eq)]
pub enum Ending {
    Verdict(bool),
    Refused(u32),
    Stopped(u32),
}

/// The verdict that book and order can be built.
pub const CAN: Ending = Ending::Verdict(true);
/// The verdict that book and order cannot be built.
pub const CANNOT: Ending = Ending::Verdict(false);

/// The outcome: how it ended, the branchings, and the derived rules and records in order.
#[derive(Clone, Debug, PartialEq, Eq)]
pub struct Outcome {
    pub ending: Ending,
    pub branchings: u32,
    pub derived: Vec<Rule>,
    pub records: Vec<Record>,
}

impl Outcome {
    /// A refusal: all counts are zero.
    pub fn refused(number: u32) -> Outcome {
        let ending = Ending::Refused(number);
        Outcome { ending, branchings: 0, derived: Vec::new(), records: Vec::new() }
    }
}

impl Ending {
    /// The word printed first, and the number after it.
    pub fn named(self) -> (&'static str, u32) {
        match self {
            Ending::Verdict(true) => ("can", 0),
            Ending::Verdict(false) => ("cannot", 0),
            Ending::Refused(number) => ("refused", number),
            Ending::Stopped(number) => ("stopped", number),
        }
    }
}

impl fmt::Display for Outcome {
    fn fmt(&self, f: &mut fmt::Formatter<'_>) -> fmt::Result {
        let (word, number) = self.ending.named();
        let (derived, records) = (self.derived.len(), self.records.len());
        writeln!(f, "{word} {number} {} {derived} {records}", self.branchings)?;
        for rule in &self.derived {
            writeln!(f, "d {} {}", rule.fitted, rule.left_out)?;
        }
        for record in &self.records {
            let decisions = record.decisions;
            writeln!(f, "r {} {} {}", decisions.decided, decisions.fitted, record.struck)?;
        }
        Ok(())
    }
}
