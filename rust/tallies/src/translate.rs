//! Rattle source as Rust. The text of the engine is nearly Rust: what is only there for the proofs
//! goes, types can be compared and shown, and around each function that the watcher is told of there is one of
//! its name that tells it. A source that does not have the form that is known is an error. The build
//! script uses this file.

use crate::watched::Watched;

/// The first line of a function that tells the watcher.
pub const TELLING: &str = "use crate::tell::*;";

/// What asks the prover for its tactics, for a crate or a function.
const TACTICS: [&str; 2] = ["#![tactic(", "#[tactic("];

/// What stands above each type of the engine: here it can also be compared and shown.
const DERIVED: &str = "#[derive(";

/// The modules that a source declares.
pub fn modules(source: &str) -> Vec<&str> {
    source.lines().filter_map(declared).collect()
}

fn declared(line: &str) -> Option<&str> {
    let line = line.strip_prefix("pub ").unwrap_or(line);
    line.strip_prefix("mod ")?.strip_suffix(';')
}

/// The source of a file as Rust, without the modules that it declares. It may use these crates.
pub fn translate(source: &str, crates: &[&str]) -> Result<String, String> {
    let mut text = String::new();
    for (number, line) in source.lines().enumerate() {
        let lines = rust(line, crates).map_err(|what| format!("line {}: {what}", number + 1))?;
        text += &lines;
    }
    Ok(text)
}

/// The text of a file, with those of its functions watched that are listed.
pub fn watch_all(file: &str, text: String, watched: &[Watched]) -> Result<String, String> {
    let mut here = watched.iter().filter(|watched| watched.file == file);
    here.try_fold(text, |text, watched| watch(&text, watched))
}

/// One line of Rattle as lines of Rust; none for what is only there for the proofs.
fn rust(line: &str, crates: &[&str]) -> Result<String, String> {
    let code = line.trim();
    let first = code.split(' ').next().unwrap_or_default();
    let is_known = match first {
        "ghost" => {
            code.ends_with("};") && (code.starts_with("ghost use ") || code.contains(" = { "))
        }
        "requires" | "ensures" => code.ends_with(" }"),
        "//" => true,
        _ => code.is_ascii(),
    };
    if !is_known {
        return Err(format!("`{code}` is not of the form that is known"));
    }
    if let Some((root, _)) = code.strip_prefix("use ").and_then(|path| path.split_once("::")) {
        if root != "super" && !crates.contains(&root) {
            return Err(format!("the crate `{root}` is not translated"));
        }
    }
    Ok(match first {
        "ghost" | "requires" | "ensures" => String::new(),
        _ if TACTICS.iter().any(|tactics| code.starts_with(tactics)) => String::new(),
        _ if declared(line).is_some() => String::new(),
        _ => match code.strip_prefix(DERIVED).and_then(|rest| rest.strip_suffix(")]")) {
            Some(traits) => format!("{DERIVED}{})]\n", shown(traits)),
            None => format!("{line}\n"),
        },
    })
}

/// The traits that are derived, and those by which a value can be compared and shown.
fn shown(traits: &str) -> String {
    let mut all: Vec<&str> = traits.split(", ").collect();
    for due in ["Debug", "PartialEq"] {
        if !all.contains(&due) {
            all.push(due);
        }
    }
    all.join(", ")
}

/// The text with this function as `NAME_itself`, and with one around it that tells the watcher.
fn watch(text: &str, watched: &Watched) -> Result<String, String> {
    let Watched { name, takes, before, after, .. } = watched;
    let parts = text.split_once(&format!("fn {name}("));
    let (above, below) = parts.ok_or(format!("there is no function `{name}`"))?;
    let (head, body) = below.split_once("\n{\n").ok_or(format!("`{name}` has no body"))?;
    let (parameters, result) = head.split_once(')').ok_or(format!("`{name}` has no end"))?;
    let parameters: Vec<&str> =
        parameters.split(',').map(str::trim).filter(|parameter| !parameter.is_empty()).collect();
    if let Some(missing) = takes.iter().find(|due| !parameters.contains(due)) {
        return Err(format!("the function `{name}` does not take `{missing}`"));
    }
    let names = parameters.iter().map(|parameter| parameter.split(':').next().unwrap_or_default());
    let (names, parameters) = (names.collect::<Vec<_>>().join(", "), parameters.join(", "));
    let public = if above.ends_with("pub ") { "pub " } else { "" };
    let work = format!("let done = {name}_itself({names});");
    let lines = [TELLING, before, &work, after, "done"].into_iter().filter(|line| !line.is_empty());
    let telling: String = lines.map(|line| format!("    {line}\n")).collect();
    Ok(format!(
        "{above}fn {name}_itself({parameters}){result}\n{{\n{body}\n\
         {public}fn {name}({parameters}){result}\n{{\n{telling}}}\n"
    ))
}

#[cfg(test)]
mod tests {
    use super::*;
    use crate::watched::WATCHED;

    const CRATES: [&str; 2] = ["rows", "words"];

    const SWEEP: &str = "\
// Rounds: λ.
#![tactic(auto)]

ghost use Rattle.std.specs.Int.Count.{ones};
use rows::clause;

#[derive(Clone, Copy, PartialEq, Default)]
struct Noted {
    pub pos: u64,
}

impl Iterator for Noted {
    ghost remaining = { λ s. at_most s.pos };
}

#[tactic(auto, using(crate::proofs::Laws::struck))]
fn strike(
    q: &mut [u64],
    m: usize,
    w: u64,
) -> Noted
    requires { w < 64 }
    ensures { result ≡ w }
{
    tallies::strike(q, m, w);
    Noted { pos: 0 }
}

pub fn sweep(t: &[u64], q: &mut [u64], a: Assignment)
{
    strike(q, 0, 1);
}
";

    const LISTED: [Watched; 3] = [
        Watched {
            file: "sweep/lib",
            name: "strike",
            takes: &["q: &mut [u64]", "w: u64"],
            before: "before();",
            after: "after_words(Change::Strike(w, done), q, m);",
        },
        Watched {
            file: "sweep/lib",
            name: "sweep",
            takes: &["a: Assignment"],
            before: "point(a.into());",
            after: "",
        },
        Watched { file: "enter/lib", name: "enter", takes: &[], before: "", after: "" },
    ];

    const RUST: &str = "\
// Rounds: λ.

use rows::clause;

#[derive(Clone, Copy, PartialEq, Default, Debug)]
struct Noted {
    pub pos: u64,
}

impl Iterator for Noted {
}

fn strike_itself(q: &mut [u64], m: usize, w: u64) -> Noted
{
    tallies::strike(q, m, w);
    Noted { pos: 0 }
}

pub fn sweep_itself(t: &[u64], q: &mut [u64], a: Assignment)
{
    strike(q, 0, 1);
}

fn strike(q: &mut [u64], m: usize, w: u64) -> Noted
{
    use crate::tell::*;
    before();
    let done = strike_itself(q, m, w);
    after_words(Change::Strike(w, done), q, m);
    done
}

pub fn sweep(t: &[u64], q: &mut [u64], a: Assignment)
{
    use crate::tell::*;
    point(a.into());
    let done = sweep_itself(t, q, a);
    done
}
";

    fn sweep(source: &str) -> Result<String, String> {
        watch_all("sweep/lib", translate(source, &CRATES)?, &LISTED)
    }

    /// What is said of the source where one part of it is another.
    fn refused(part: &str, other: &str) -> String {
        assert!(SWEEP.contains(part), "no {part}");
        sweep(&SWEEP.replace(part, other)).unwrap_err()
    }

    #[test]
    fn a_source_is_rust_with_its_change_watched() {
        assert_eq!(sweep(SWEEP).unwrap(), RUST);
    }

    #[test]
    fn modules_are_listed_and_not_in_the_text() {
        let source = "mod branch;\npub mod run;\n// mod note;\n";
        assert_eq!(modules(source), ["branch", "run"]);
        assert_eq!(translate(source, &CRATES).unwrap(), "// mod note;\n");
    }

    #[test]
    fn a_function_that_is_not_there_is_named() {
        assert_eq!(refused("fn strike(", "fn struck("), "there is no function `strike`");
        assert_eq!(refused("    w: u64,\n", ""), "the function `strike` does not take `w: u64`");
        for watched in &WATCHED {
            let told = watch_all(watched.file, String::new(), &WATCHED).unwrap_err();
            assert!(told.starts_with("there is no function `"), "{told}");
        }
    }

    #[test]
    fn a_line_of_another_form_is_named() {
        for (part, other, line) in [
            ("{ones};", "ones", "line 4: `ghost use Rattle.std.specs.Int.Count.ones`"),
            ("w < 64 }", "w < 64", "line 22: `requires { w < 64`"),
            ("    Noted {", "    ghost let {", "line 26: `ghost let { pos: 0 }`"),
            ("s.pos };", "s.pos", "line 13: `ghost remaining = { λ s. at_most s.pos`"),
            ("pos: 0", "pos: ν", "line 26: `Noted { pos: ν }`"),
        ] {
            assert_eq!(refused(part, other), format!("{line} is not of the form that is known"));
        }
    }

    #[test]
    fn a_crate_that_is_not_translated_is_named() {
        let told = refused("use rows::", "use book::");
        assert_eq!(told, "line 5: the crate `book` is not translated");
    }
}
