//! How the tool ends: what a verb prints with its status, or what failed.

use optbook::engine::{Kind, Unlinked};
use std::{fmt, io};

/// The status on a bad command line.
pub const USAGE: i32 = 64;
/// The status where what is read has a mistake or cannot be read.
pub const MISTAKE: i32 = 65;
/// The status of a tool that was built without the proved library.
pub const UNLINKED: i32 = 69;
/// The status where the output cannot be written.
pub const UNWRITTEN: i32 = 74;

/// What a verb prints, and the status that the tool ends with.
pub struct Printed {
    pub bytes: Vec<u8>,
    pub status: i32,
}

/// What failed, in words.
pub enum Failure {
    Usage(String),
    Mistake(String),
    Refused(String),
    Unlinked,
    Unwritten(io::Error),
}

/// The status of a check: 0 can, 1 cannot, 2 refused, 3 stopped.
pub fn status_of(kind: Kind) -> i32 {
    match kind {
        Kind::Can => 0,
        Kind::Cannot => 1,
        Kind::Refused => 2,
        Kind::Stopped => 3,
    }
}

impl Printed {
    /// A text, with status 0.
    pub fn text(text: String) -> Printed {
        Printed { bytes: text.into_bytes(), status: 0 }
    }
}

impl Failure {
    pub fn status(&self) -> i32 {
        match self {
            Failure::Usage(_) => USAGE,
            Failure::Mistake(_) => MISTAKE,
            Failure::Refused(_) => status_of(Kind::Refused),
            Failure::Unlinked => UNLINKED,
            Failure::Unwritten(_) => UNWRITTEN,
        }
    }
}

impl From<Unlinked> for Failure {
    fn from(_: Unlinked) -> Failure {
        Failure::Unlinked
    }
}

impl fmt::Display for Failure {
    fn fmt(&self, f: &mut fmt::Formatter<'_>) -> fmt::Result {
        match self {
            Failure::Usage(what) | Failure::Mistake(what) | Failure::Refused(what) => {
                f.write_str(what)
            }
            Failure::Unlinked => f.write_str(
                "built without the proved library, which alone answers this: build it with ./check",
            ),
            Failure::Unwritten(error) => write!(f, "standard output: {error}"),
        }
    }
}
