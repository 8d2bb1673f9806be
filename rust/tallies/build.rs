//! Translates the engine's Rattle sources to one Rust file, in which the watcher is told of changes.

#[path = "src/translate.rs"]
mod translate;
#[path = "src/watched.rs"]
mod watched;
#[path = "src/writers.rs"]
mod writers;

use std::path::{Path, PathBuf};
use std::{env, fs, process};
use translate::{modules, translate, watch_all, TELLING};
use watched::WATCHED;

/// The crates of the engine that run; `search` has its entry.
const CRATES: [&str; 7] = ["answer", "words", "rows", "sweep", "enter", "merge", "search"];

fn main() {
    let folder = |name| PathBuf::from(env::var_os(name).expect("cargo names its folders"));
    let project = folder("CARGO_MANIFEST_DIR").join("../..");
    let project = project.canonicalize().expect("the project's folder is there");
    match engine(&project.join("crates")) {
        Ok(text) => {
            fs::write(folder("OUT_DIR").join("engine.rs"), text).expect("it can be written")
        }
        Err(what) => {
            println!("cargo::error=the engine cannot be translated: {what}");
            process::exit(1);
        }
    }
}

/// All crates, each as a module. All that is watched must be in one of them, and no tally may be
/// changed unwatched.
fn engine(crates: &Path) -> Result<String, String> {
    let (mut text, mut files) = (String::new(), Vec::new());
    for name in CRATES {
        text += &module(name, &crates.join(name).join("src"), name, "lib", &mut files)?;
    }
    writers::check(&files)?;
    match text.matches(TELLING).count() {
        count if count == WATCHED.len() => Ok(text),
        count => Err(format!("{count} functions are watched, not {}", WATCHED.len())),
    }
}

/// The file of this stem as a module of this name, with the modules that it declares inside it. Each
/// file is put to the list with its text, in which nothing is watched.
fn module(
    krate: &str,
    folder: &Path,
    name: &str,
    stem: &str,
    files: &mut Vec<(String, String)>,
) -> Result<String, String> {
    let file = folder.join(stem).with_extension("rt");
    println!("cargo::rerun-if-changed={}", file.display());
    let named = |what: String| format!("{}: {what}", file.display());
    let source = fs::read_to_string(&file).map_err(|error| named(error.to_string()))?;
    let (short, text) = (format!("{krate}/{stem}"), translate(&source, &CRATES).map_err(named)?);
    let mut watched = watch_all(&short, text.clone(), &WATCHED).map_err(named)?;
    files.push((short, text));
    for inner in modules(&source) {
        watched += &module(krate, folder, inner, inner, files)?;
    }
    Ok(format!("pub mod {name} {{\nuse crate::engine::*;\n{watched}}}\n"))
}
