//! A test build of the engine: its own Rattle source, translated to Rust when this package is built,
//! with a watcher around each function that changes tallies. After each change the watcher counts
//! the tallies of every rule anew, option by option, and compares them and every row of the index of
//! the rules with the engine's.

mod blocks;
mod change;
mod in_force;
mod recount;
mod run;
mod tell;
#[cfg(test)]
mod translate;
mod watch;
#[cfg(test)]
mod watched;
#[cfg(test)]
mod writers;

/// The crates of the engine, each as a module.
#[allow(dead_code, unused_imports, unused_variables, clippy::all)]
mod engine {
    include!(concat!(env!("OUT_DIR"), "/engine.rs"));
}

pub use change::{Seen, KINDS, NAMES};
pub use run::{run, Run};
