//! An outside optimiser, run as a process on a file: clasp, on constraints in the OPB form and a sum that shall be
//! as small as may be. It prints each smaller sum that it finds, the last one after an `o`, and whether that is
//! the least.

use crate::outside::{on_path, own_file};
use std::fs;
use std::path::PathBuf;
use std::process::{Command, Stdio};

/// The optimiser looked for.
const OPTIMISER: &str = "clasp";

/// An optimiser, and a file of its own to hand constraints over in.
pub struct Optimiser {
    program: PathBuf,
    file: PathBuf,
}

impl Optimiser {
    /// The optimiser, where it is installed.
    pub fn find() -> Result<Optimiser, String> {
        Optimiser::named(OPTIMISER)
    }

    fn named(name: &str) -> Result<Optimiser, String> {
        match on_path(name) {
            Some(program) => Ok(Optimiser { program, file: own_file("opb") }),
            None => Err(format!("no outside optimiser is installed (looked for: {name})")),
        }
    }

    pub fn name(&self) -> String {
        self.program.file_name().unwrap_or_default().to_string_lossy().into_owned()
    }

    /// The least sum, none where the constraints cannot be kept.
    pub fn least(&self, constraints: &str) -> Result<Option<u64>, String> {
        self.write(constraints)?;
        self.run()
    }

    /// Writes constraints in the OPB form to the optimiser's file.
    pub fn write(&self, constraints: &str) -> Result<(), String> {
        fs::write(&self.file, constraints)
            .map_err(|error| format!("{}: {error}", self.file.display()))
    }

    /// Runs the optimiser on what was last handed over.
    pub fn run(&self) -> Result<Option<u64>, String> {
        let name = self.name();
        let mut command = Command::new(&self.program);
        command.arg(&self.file).stdin(Stdio::null()).stderr(Stdio::null());
        let output = command.output().map_err(|error| format!("{name}: {error}"))?;
        read(&String::from_utf8_lossy(&output.stdout)).ok_or(format!("{name} gave no answer"))
    }
}

impl Drop for Optimiser {
    fn drop(&mut self) {
        // There may be no file yet, and one that stays behind does no harm.
        let _ = fs::remove_file(&self.file);
    }
}

/// What the optimiser printed: the least sum, or that there is none; nothing where it says neither.
fn read(printed: &str) -> Option<Option<u64>> {
    let after = |start: &str| printed.lines().rev().find_map(|line| line.strip_prefix(start));
    match after("s ")? {
        "OPTIMUM FOUND" => Some(Some(after("o ")?.parse().ok()?)),
        "UNSATISFIABLE" => Some(None),
        _ => None,
    }
}

#[cfg(test)]
mod tests {
    use super::*;

    #[test]
    fn a_missing_optimiser_is_named() {
        let error = Optimiser::named("no-such-optimiser").err().unwrap();
        assert_eq!(error, "no outside optimiser is installed (looked for: no-such-optimiser)");
    }

    #[test]
    fn a_program_that_says_nothing_is_an_error() {
        let error = Optimiser::named("true").unwrap().least("").unwrap_err();
        assert_eq!(error, "true gave no answer");
    }

    #[test]
    fn the_last_sum_is_the_least() {
        let printed = |verdict: &str| format!("c an optimiser\no 12\no 7\nv x1\ns {verdict}\nc\n");
        assert_eq!(read(&printed("OPTIMUM FOUND")), Some(Some(7)));
        assert_eq!(read(&printed("UNSATISFIABLE")), Some(None));
        assert_eq!(read(&printed("SATISFIABLE")), None);
        assert_eq!(read("s OPTIMUM FOUND\n"), None);
        assert_eq!(read("o 7\n"), None);
    }

    /// "x1 or x2" and "not x2 or x3": x1 costs 3, x2 and x3 together 6.
    #[test]
    fn an_optimiser_that_is_there_finds_the_least_sum() {
        let Ok(optimiser) = Optimiser::find() else { return };
        let rules = "+1 x1 +1 x2 >= 1 ;\n+1 ~x2 +1 x3 >= 1 ;\n";
        let sum = "min: +3 x1 +1 x2 +5 x3 ;\n";
        let least = |rules: &str, count: usize| {
            optimiser.least(&format!("* #variable= 3 #constraint= {count}\n{sum}{rules}"))
        };
        assert_eq!(least(rules, 2), Ok(Some(3)));
        assert_eq!(least(&format!("{rules}+1 ~x1 >= 1 ;\n"), 3), Ok(Some(6)));
        assert_eq!(least(&format!("{rules}+1 ~x1 >= 1 ;\n+1 ~x3 >= 1 ;\n"), 4), Ok(None));
    }
}
