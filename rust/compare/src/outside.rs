//! An outside solver, run as a process on a file: minisat, cadical or picosat on a DIMACS file, and depqbf on a
//! QDIMACS file, whose clauses stand after quantifiers. All of them end with status 10 where the rules can be
//! kept and with 20 where they cannot.

use optbook::{dimacs, Book, Order};
use std::path::{Path, PathBuf};
use std::process::{Command, Stdio};
use std::sync::atomic::{AtomicUsize, Ordering};
use std::{env, fs, process};

/// The solvers looked for, in this order.
const SOLVERS: [&str; 3] = ["minisat", "cadical", "picosat"];
/// The solver of quantified clauses.
const QUANTIFIED: &str = "depqbf";

pub const STATUS_CAN: i32 = 10;
pub const STATUS_CANNOT: i32 = 20;

/// Files named so far, so that each solver has one of its own.
static NAMED: AtomicUsize = AtomicUsize::new(0);

/// A solver, and a file of its own to hand books over in.
pub struct Solver {
    program: PathBuf,
    file: PathBuf,
}

impl Solver {
    /// The solver with this name or path, or the first that is installed.
    pub fn find(named: Option<&str>) -> Result<Solver, String> {
        let found = match named {
            Some(name) => on_path(name),
            None => SOLVERS.iter().find_map(|name| on_path(name)),
        };
        let Some(program) = found else {
            let wanted = named.map_or(SOLVERS.join(", "), str::to_string);
            return Err(format!("no outside solver is installed (looked for: {wanted})"));
        };
        Ok(Solver { program, file: own_file("cnf") })
    }

    /// The solver of quantified clauses, where it is installed.
    pub fn quantified() -> Result<Solver, String> {
        Solver::find(Some(QUANTIFIED))
    }

    pub fn name(&self) -> String {
        self.program.file_name().unwrap_or_default().to_string_lossy().into_owned()
    }

    /// The solver's verdict: book and order can be built.
    pub fn can_be_built(&self, order: Order, book: &Book) -> Result<bool, String> {
        self.hand_over(order, book)?;
        self.run()
    }

    /// The solver's verdict on clauses in its own form: they can all be kept.
    pub fn can_be_kept(&self, clauses: &str) -> Result<bool, String> {
        self.write(clauses)?;
        self.run()
    }

    /// Writes book and order to the solver's file.
    pub fn hand_over(&self, order: Order, book: &Book) -> Result<(), String> {
        self.write(&dimacs::write(book, order))
    }

    /// Writes clauses in the solver's own form to its file.
    pub fn write(&self, clauses: &str) -> Result<(), String> {
        fs::write(&self.file, clauses).map_err(|error| format!("{}: {error}", self.file.display()))
    }

    /// Runs the solver on what was last handed over.
    pub fn run(&self) -> Result<bool, String> {
        let mut command = Command::new(&self.program);
        command.arg(&self.file).stdin(Stdio::null()).stdout(Stdio::null()).stderr(Stdio::null());
        let name = self.name();
        match command.status().map_err(|error| format!("{name}: {error}"))?.code() {
            Some(STATUS_CAN) => Ok(true),
            Some(STATUS_CANNOT) => Ok(false),
            other => Err(format!("{name} ended with {other:?}, not with 10 or 20")),
        }
    }
}

impl Drop for Solver {
    fn drop(&mut self) {
        // There may be no file yet, and one that stays behind does no harm.
        let _ = fs::remove_file(&self.file);
    }
}

/// The path of a file that no one else has, with this ending.
pub fn own_file(ending: &str) -> PathBuf {
    let number = NAMED.fetch_add(1, Ordering::Relaxed);
    env::temp_dir().join(format!("compare-{}-{number}.{ending}", process::id()))
}

/// The program's path: the name itself where it has a slash, else from the PATH.
pub fn on_path(name: &str) -> Option<PathBuf> {
    if name.contains('/') {
        return Some(PathBuf::from(name)).filter(|path| path.is_file());
    }
    let folders = env::var_os("PATH")?;
    let mut candidates = env::split_paths(&folders).map(|folder| folder.join(name));
    candidates.find(|path| is_program(path))
}

fn is_program(path: &Path) -> bool {
    use std::os::unix::fs::PermissionsExt;
    fs::metadata(path).is_ok_and(|data| data.is_file() && data.permissions().mode() & 0o111 != 0)
}

#[cfg(test)]
mod tests {
    use super::*;

    #[test]
    fn a_missing_solver_is_named() {
        let error = Solver::find(Some("no-such-solver")).err().unwrap();
        assert_eq!(error, "no outside solver is installed (looked for: no-such-solver)");
    }

    #[test]
    fn a_status_that_is_no_verdict_is_an_error() {
        let solver = Solver::find(Some("true")).unwrap();
        let error = solver.can_be_built(Order::default(), &Book::default()).unwrap_err();
        assert_eq!(error, "true ended with Some(0), not with 10 or 20");
    }

    /// Options 1 and 2 are alike: it matters which is settled first, and by whom.
    #[test]
    fn a_solver_of_quantified_clauses_that_is_there_minds_their_sequence() {
        let Ok(solver) = Solver::quantified() else { return };
        let of = |prefix: &str| solver.can_be_kept(&format!("p cnf 2 2\n{prefix}1 -2 0\n2 -1 0\n"));
        assert_eq!(of("a 1 0\ne 2 0\n"), Ok(true));
        assert_eq!(of("e 1 0\na 2 0\n"), Ok(false));
        assert_eq!(of("e 1 0\ne 2 0\n"), Ok(true));
    }
}
