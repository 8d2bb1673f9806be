//! `optbook`: the tool for readable option books. Each verb is a file of `verbs/`; what it prints
//! and how it ends is written here, once.

mod arguments;
mod ending;
mod files;
mod lines;
mod verbs;
mod waiting;

use arguments::Arguments;
use ending::{Failure, Printed};
use std::io::{self, ErrorKind, Write};
use std::{env, process};
use verbs::{Verb, VERBS};

fn main() {
    let words: Vec<String> = match env::args_os().skip(1).map(|word| word.into_string()).collect() {
        Ok(words) => words,
        Err(word) => end(Failure::Usage(format!("{} is not UTF-8", word.display())), None),
    };
    let Some((name, words)) = words.split_first() else {
        let _ = io::stderr().write_all(verbs::help().as_bytes());
        process::exit(ending::USAGE);
    };
    if is_help(name) || name == "help" {
        print(Printed::text(verbs::help()));
    }
    let Some(verb) = VERBS.iter().find(|verb| verb.name == name.as_str()) else {
        let names: Vec<&str> = VERBS.iter().map(|verb| verb.name).collect();
        let expected = names.join(", ");
        end(Failure::Usage(format!("`{name}` is no verb: expected one of {expected}")), None);
    };
    if words.iter().any(|word| is_help(word)) {
        print(Printed::text(verb.help()));
    }
    let Verb { flags, repeated, switches, files, run, .. } = *verb;
    let arguments = Arguments::read(words, flags, repeated, switches, files);
    match arguments.and_then(|arguments| run(&arguments)) {
        Ok(printed) => print(printed),
        Err(failure) => end(failure, Some(verb)),
    }
}

fn is_help(word: &str) -> bool {
    word == "--help" || word == "-h"
}

/// Prints and ends. A reader that has seen enough is no failure.
fn print(printed: Printed) -> ! {
    let written = io::stdout().write_all(&printed.bytes).and_then(|()| io::stdout().flush());
    match written {
        Err(error) if error.kind() != ErrorKind::BrokenPipe => end(Failure::Unwritten(error), None),
        _ => process::exit(printed.status),
    }
}

/// Tells a failure, once, and ends. That nobody hears it is no other failure.
fn end(failure: Failure, verb: Option<&Verb>) -> ! {
    let mut told = format!("optbook: {failure}\n");
    if let Failure::Usage(_) = failure {
        told += &match verb {
            Some(verb) => format!("usage: {}\n", verb.usage()),
            None => "`optbook --help` tells more\n".to_string(),
        };
    }
    let _ = io::stderr().write_all(told.as_bytes());
    process::exit(failure.status());
}
