//! The changes of the tallies that the watcher is told of, and what it counts of them.

use port::{Decisions, Rule};

/// A change of the tallies, with what the engine says of it. An option is a set of one.
#[derive(Clone, Copy, Debug, PartialEq, Eq)]
pub enum Change {
    /// The first tallies of a run: nothing is decided and nothing struck.
    Start,
    /// The option, which was undecided, is decided so: fitted for true.
    Decide(u64, bool),
    /// The option, which was decided so, is decided the other way.
    Turn(u64, bool),
    /// The option, which was decided so, is undecided.
    Withdraw(u64, bool),
    /// The option is struck; whether a rule that was in play names it.
    Strike(u64, bool),
    /// All undecided options are struck, which are these.
    Restrike(u64),
    /// The first set was struck, and now the second is.
    Unstrike(u64, u64),
    /// The rule is added, at these decisions and with this set struck.
    Add(Decisions, u64, Rule),
}

/// How many kinds of changes there are.
pub const KINDS: usize = 8;

/// The kinds of changes by name.
pub const NAMES: [&str; KINDS] =
    ["start", "decide", "turn", "withdraw", "strike", "restrike", "unstrike", "add"];

impl Change {
    /// The place of its kind in the list of names.
    pub fn kind(self) -> usize {
        match self {
            Change::Start => 0,
            Change::Decide(..) => 1,
            Change::Turn(..) => 2,
            Change::Withdraw(..) => 3,
            Change::Strike(..) => 4,
            Change::Restrike(..) => 5,
            Change::Unstrike(..) => 6,
            Change::Add(..) => 7,
        }
    }
}

/// What was seen: the changes of each kind, the words that were compared, and the points at which the
/// engine said what it goes by.
#[derive(Clone, Copy, Debug, Default, PartialEq, Eq)]
pub struct Seen {
    pub changes: [usize; KINDS],
    pub words: usize,
    pub points: usize,
}

impl Seen {
    /// Both together.
    pub fn add(&mut self, other: Seen) {
        for (sum, count) in self.changes.iter_mut().zip(other.changes) {
            *sum += count;
        }
        self.words += other.words;
        self.points += other.points;
    }
}
