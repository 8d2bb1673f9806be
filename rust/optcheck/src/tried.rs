//! What trying every setting of open options ends with.

use crate::Answer;

/// What the settings give together: all, some but not all, or none of them can be built, or one of
/// them stopped, so that there is no verdict.
#[derive(Clone, Copy, Debug, PartialEq, Eq)]
pub enum Verdict {
    Always,
    Sometimes,
    Never,
    Stopped,
}

/// The settings that were tried: what they give together, the last of them, as the set of the open
/// options that are fitted, and its answer. The last is the one that stopped, and else the one with
/// all open options.
#[derive(Clone, Copy, Debug, PartialEq, Eq)]
pub struct Tried {
    pub verdict: Verdict,
    pub setting: u64,
    pub last: Answer,
}

impl Verdict {
    /// The verdict in a word.
    pub fn of_word(word: u32) -> Verdict {
        match word {
            0 => Verdict::Always,
            1 => Verdict::Sometimes,
            2 => Verdict::Never,
            _ => Verdict::Stopped,
        }
    }
}
