//! The program `port`, as it is run: the outcome, and with `--page` the page.

use std::io::Write;
use std::process::{Command, Output, Stdio};

fn port(words: &[&str], input: &[u8]) -> Output {
    let mut command = Command::new(env!("CARGO_BIN_EXE_port"));
    command.args(words).stdin(Stdio::piped()).stdout(Stdio::piped()).stderr(Stdio::piped());
    let mut child = command.spawn().unwrap();
    // It ends on a bad command line without reading.
    let _ = child.stdin.take().unwrap().write_all(input);
    child.wait_with_output().unwrap()
}

fn printed(words: &[&str], input: &[u8]) -> String {
    String::from_utf8(port(words, input).stdout).unwrap()
}

/// The empty order on the book of n 1 with the rules "1" and "not 1".
fn pair() -> Vec<u8> {
    let mut input = vec![0; 24];
    input.extend([1, 2, 0]);
    [1u64, 0, 0, 1].iter().for_each(|word| input.extend(word.to_le_bytes()));
    input
}

#[test]
fn the_outcome_or_the_page_is_printed() {
    assert_eq!(printed(&[], &pair()), "cannot 0 1 1 1\nd 0 0\nr 0 0 1\n");
    let page =
        "cannot             0         1         1\n   1 none                               \n";
    assert_eq!(printed(&["--page"], &pair()), page);
}

#[test]
fn a_short_input_is_refused_on_its_page_too() {
    assert_eq!(printed(&[], &[0; 23]), "refused 1 0 0 0\n");
    assert_eq!(printed(&["--page"], &[0; 23]), "refused            1         0         0\n");
}

#[test]
fn a_bad_command_line_ends_with_2() {
    for words in [&["--pages"][..], &["--page", "book"]] {
        let ended = port(words, b"");
        assert_eq!((ended.status.code(), ended.stdout.len()), (Some(2), 0));
    }
}
