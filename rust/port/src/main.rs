//! `port`: the port as a program. It reads the order and the book from standard input, prints the
//! outcome, or with `--page` the page, and ends with 0, whatever the outcome is; with 2 on a bad command
//! line.

use std::io::{self, Read, Write};
use std::{env, process};

fn main() -> io::Result<()> {
    let words: Vec<String> = env::args().skip(1).collect();
    let words: Vec<&str> = words.iter().map(String::as_str).collect();
    let print: fn(&port::Outcome) -> String = match words[..] {
        [] => port::Outcome::to_string,
        ["--page"] => port::page,
        _ => {
            eprintln!("usage: port [--page]");
            process::exit(2);
        }
    };
    let mut input = Vec::new();
    io::stdin().read_to_end(&mut input)?;
    io::stdout().write_all(print(&port::run_program(&input)).as_bytes())
}
