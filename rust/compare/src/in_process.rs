//! Outside solvers in this process: picosat, minisat and cadical, from the libraries that Debian
//! ships. What calls them (in_process.cpp) is compiled and loaded when a solver is asked for, so this
//! program is built and runs without them.

use crate::outside::{own_file, STATUS_CAN, STATUS_CANNOT};
use optbook::{dimacs, Book, Order};
use std::ffi::{c_char, c_int, c_void, CStr, CString};
use std::io::Write;
use std::path::Path;
use std::process::{Command, Stdio};
use std::{fs, mem};

/// A solver's name and the Debian package with its library and header.
struct Kind {
    name: &'static str,
    package: &'static str,
}

const KINDS: [Kind; 3] = [
    Kind { name: "picosat", package: "picosat" },
    Kind { name: "minisat", package: "minisat" },
    Kind { name: "cadical", package: "libcadical-dev" },
];

const CALLER: &str = include_str!("in_process.cpp");
const COMPILER: &str = "c++";
/// The Debian package with the compiler.
const COMPILER_PACKAGE: &str = "g++";

/// The function of in_process.cpp.
type Solve = unsafe extern "C" fn(*const c_int, usize) -> c_int;

extern "C" {
    fn dlopen(file: *const c_char, flags: c_int) -> *mut c_void;
    fn dlsym(library: *mut c_void, name: *const c_char) -> *mut c_void;
    fn dlerror() -> *const c_char;
}

/// All of a library's names are looked up when it is loaded, and are its own.
const RTLD_NOW: c_int = 2;

/// A solver that is loaded. It stays loaded until the process ends.
pub struct InProcess {
    name: &'static str,
    solve: Solve,
}

/// A book's rules and an order's wishes: the literals of each clause, and a 0 after it.
pub struct Clauses(Vec<c_int>);

/// Each solver, or what it is that is missing.
pub fn all() -> Vec<Result<InProcess, String>> {
    KINDS.iter().map(InProcess::load).collect()
}

impl Clauses {
    /// The clauses of the DIMACS form.
    pub fn of(order: Order, book: &Book) -> Clauses {
        let text = dimacs::write(book, order);
        let words = text.lines().skip(1).flat_map(str::split_whitespace);
        Clauses(words.map(|word| word.parse().expect("a literal or 0")).collect())
    }
}

impl InProcess {
    fn load(kind: &Kind) -> Result<InProcess, String> {
        let file = own_file("so");
        let solve = compile(kind, &file).and_then(|()| load(&file));
        // There may be no file, and what is loaded stays without it.
        let _ = fs::remove_file(&file);
        let Kind { name, package } = kind;
        match solve {
            Ok(solve) => Ok(InProcess { name, solve }),
            Err(what) => Err(format!(
                "no {name} in process, which needs Debian's packages {package} and \
                 {COMPILER_PACKAGE}: {what}"
            )),
        }
    }

    pub fn name(&self) -> &str {
        self.name
    }

    /// The verdict of a solver made for these clauses: they can be kept.
    pub fn can_be_built(&self, Clauses(literals): &Clauses) -> Result<bool, String> {
        // SAFETY: the function is that of in_process.cpp, which reads as many literals as it is told
        // and keeps none of them.
        match unsafe { (self.solve)(literals.as_ptr(), literals.len()) } {
            STATUS_CAN => Ok(true),
            STATUS_CANNOT => Ok(false),
            other => Err(format!("{} in process answered {other}, not 10 or 20", self.name)),
        }
    }
}

/// Compiles in_process.cpp for a solver, over its library, to a shared one.
fn compile(kind: &Kind, to: &Path) -> Result<(), String> {
    let mut command = Command::new(COMPILER);
    command.args(["-w", "-O2", "-shared", "-fPIC", "-o"]).arg(to);
    command.arg(format!("-D{}", kind.name.to_uppercase()));
    command.args(["-x", "c++", "-", "-x", "none"]).arg(format!("-l{}", kind.name));
    command.stdin(Stdio::piped()).stdout(Stdio::null()).stderr(Stdio::piped());
    let failed = |error| format!("{COMPILER}: {error}");
    let mut child = command.spawn().map_err(failed)?;
    let mut stdin = child.stdin.take().expect("standard input is piped");
    // A compiler that does not read all of it fails, or what it makes has no function.
    let _ = stdin.write_all(CALLER.as_bytes());
    drop(stdin);
    let output = child.wait_with_output().map_err(failed)?;
    if output.status.success() {
        return Ok(());
    }
    let said = String::from_utf8_lossy(&output.stderr);
    Err(said.lines().next().unwrap_or("c++ failed").to_string())
}

/// Loads a file that `compile` made.
fn load(file: &Path) -> Result<Solve, String> {
    let path = CString::new(file.as_os_str().as_encoded_bytes()).expect("no zero byte");
    // SAFETY: both names end with a zero byte.
    let solve = unsafe {
        let library = dlopen(path.as_ptr(), RTLD_NOW);
        if library.is_null() {
            return Err(last_error());
        }
        dlsym(library, c"solve".as_ptr())
    };
    if solve.is_null() {
        return Err(last_error());
    }
    // SAFETY: it is the function of in_process.cpp, and its library is never unloaded.
    Ok(unsafe { mem::transmute::<*mut c_void, Solve>(solve) })
}

/// What the loader says of its last failure.
fn last_error() -> String {
    // SAFETY: the text stays until the thread's next call of the loader.
    unsafe {
        let text = dlerror();
        assert!(!text.is_null(), "the loader failed");
        CStr::from_ptr(text).to_string_lossy().into_owned()
    }
}

#[cfg(test)]
mod tests {
    use super::*;
    use crate::shapes;
    use optbook::Rule;

    #[test]
    fn clauses_are_the_rules_and_then_the_wishes() {
        let rules = vec![Rule { fitted: 0b1, left_out: 0b10 }, Rule::default()];
        let order = Order { wanted: 0b100, unwanted: 0b1, standard: 0b1 };
        let Clauses(literals) = Clauses::of(order, &Book { options: 3, rules });
        assert_eq!(literals, [1, -2, 0, 0, -1, 0, 3, 0]);
    }

    #[test]
    fn a_missing_solver_is_named_with_its_package() {
        let kind = Kind { name: "nosuchsolver", package: "libnosuchsolver-dev" };
        let error = InProcess::load(&kind).err().unwrap();
        let due = "no nosuchsolver in process, which needs Debian's packages \
                   libnosuchsolver-dev and g++: ";
        assert!(error.starts_with(due), "{error}");
    }

    #[test]
    fn a_solver_that_is_there_tells_a_contradiction() {
        let all_rules = shapes::all_rules(3);
        let mut one_fewer = all_rules.clone();
        one_fewer.rules.pop();
        let wanted = Order { wanted: 0b1, ..Order::default() };
        let one = Book { options: 1, rules: vec![Rule { fitted: 0, left_out: 0b1 }] };
        for solver in all().into_iter().flatten() {
            let can = |order, book| solver.can_be_built(&Clauses::of(order, book));
            assert_eq!(can(Order::default(), &all_rules), Ok(false), "{}", solver.name());
            assert_eq!(can(Order::default(), &one_fewer), Ok(true), "{}", solver.name());
            assert_eq!(can(wanted, &one), Ok(false), "{}", solver.name());
            assert_eq!(can(Order::default(), &one), Ok(true), "{}", solver.name());
            assert_eq!(can(Order::default(), &Book::default()), Ok(true), "{}", solver.name());
        }
    }
}
