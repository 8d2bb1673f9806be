//! What should be in force at a moment of a run.

use port::Decisions;

/// The decisions, the struck set and the number of rules.
#[derive(Clone, Copy, Debug, Default, PartialEq, Eq)]
pub struct InForce {
    pub decisions: Decisions,
    pub struck: u64,
    pub rules: usize,
    /// The decided options whose second side it is.
    pub second_sides: u64,
}

impl InForce {
    pub fn is_at(self, decisions: Decisions) -> Result<(), String> {
        match self.decisions == decisions {
            true => Ok(()),
            false => Err(format!("in force are {:?}, not {decisions:?}", self.decisions)),
        }
    }

    pub fn has_struck(self, struck: u64) -> Result<(), String> {
        match self.struck == struck {
            true => Ok(()),
            false => Err(format!("in force is the struck set {}, not {struck}", self.struck)),
        }
    }

    pub fn has(self, rules: usize) -> Result<(), String> {
        match self.rules == rules {
            true => Ok(()),
            false => Err(format!("there are {} rules, not {rules}", self.rules)),
        }
    }

    /// The decisions with an option, which is undecided.
    pub fn with(self, option: u64, fitted: bool) -> Result<Decisions, String> {
        is_one(option)?;
        match self.decisions.decided & option {
            0 => Ok(self.decisions.with(option, fitted)),
            _ => Err(format!("{option} is decided at {:?}", self.decisions)),
        }
    }

    /// The decisions without an option, which is decided so.
    pub fn without(self, option: u64, fitted: bool) -> Result<Decisions, String> {
        is_one(option)?;
        let rest = self.decisions.on(!option);
        match self.decisions != rest && self.decisions == rest.with(option, fitted) {
            true => Ok(rest),
            false => Err(format!("{option} is not decided so at {:?}", self.decisions)),
        }
    }

    /// The struck set with an option.
    pub fn with_struck(self, option: u64) -> Result<u64, String> {
        is_one(option)?;
        Ok(self.struck | option)
    }
}

fn is_one(option: u64) -> Result<(), String> {
    match option.count_ones() {
        1 => Ok(()),
        _ => Err(format!("{option} is not one option")),
    }
}
