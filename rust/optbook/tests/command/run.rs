//! Running the command `optbook`, and the examples.

use std::io::{ErrorKind, Write};
use std::path::Path;
use std::process::{Command, Stdio};

/// What the command printed, what it said on standard error, and its status.
pub struct Ended {
    pub printed: Vec<u8>,
    pub said: String,
    pub status: i32,
}

impl Ended {
    pub fn text(&self) -> &str {
        std::str::from_utf8(&self.printed).unwrap()
    }
}

/// Runs a command line with this standard input, from the repository's folder.
pub fn optbook(words: &[&str], input: &[u8]) -> Ended {
    let mut command = Command::new(env!("CARGO_BIN_EXE_optbook"));
    command.args(words).current_dir(Path::new(env!("CARGO_MANIFEST_DIR")).join("../.."));
    command.stdin(Stdio::piped()).stdout(Stdio::piped()).stderr(Stdio::piped());
    let mut child = command.spawn().unwrap();
    match child.stdin.take().unwrap().write_all(input) {
        Err(error) if error.kind() != ErrorKind::BrokenPipe => panic!("{error}"),
        _ => (),
    }
    let output = child.wait_with_output().unwrap();
    Ended {
        printed: output.stdout,
        said: String::from_utf8(output.stderr).unwrap(),
        status: output.status.code().unwrap(),
    }
}

/// The path of a file with this text. No two tests have files of one name.
pub fn file(name: &str, text: &str) -> String {
    let path = Path::new(env!("CARGO_TARGET_TMPDIR")).join(name);
    std::fs::write(&path, text).unwrap();
    path.to_str().unwrap().to_string()
}

pub const PLANT: &str = "examples/plant.book";
pub const CAN: &str = "examples/plant.order";
pub const PRICES: &str = "examples/plant.prices";
pub const DOSING: &str = "examples/dosing.book";
pub const DRYING: &str = "examples/drying.book";
