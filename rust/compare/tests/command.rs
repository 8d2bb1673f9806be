//! The command `compare`: how it ends, and what it says where something is missing or differs.

use std::path::Path;
use std::process::{Command, Output};

fn compare(words: &[&str]) -> Output {
    Command::new(env!("CARGO_BIN_EXE_compare")).args(words).output().unwrap()
}

fn said(output: &Output) -> String {
    String::from_utf8_lossy(&output.stderr).into_owned()
}

fn vectors(file: &str) -> String {
    let path = Path::new(env!("CARGO_MANIFEST_DIR")).join("../../tests/vectors").join(file);
    path.to_str().unwrap().to_string()
}

#[test]
fn a_missing_solver_fails_and_says_so() {
    let output = compare(&["differential", "--program", "cat", "--solver", "no-such-solver"]);
    assert_eq!(output.status.code(), Some(1));
    assert!(said(&output).contains("no outside solver is installed"), "{}", said(&output));
}

#[test]
fn a_program_that_prints_something_else_differs_with_its_book() {
    let output = compare(&["differential", "--program", "cat", "--solver", "true"]);
    assert_eq!(output.status.code(), Some(1));
    let said = said(&output);
    assert!(said.contains("book 0 of seed 1: the outcomes differ"), "{said}");
    assert!(said.contains("standard input in hexadecimal:\n"), "{said}");
}

#[test]
fn a_vector_that_differs_is_named() {
    let output = compare(&["vectors", &vectors("p01.txt"), "--program", "cat"]);
    assert_eq!(output.status.code(), Some(1));
    let told = String::from_utf8_lossy(&output.stdout);
    let due = "case empty differs, program cat: line 1 is nothing, due is `refused 1 0 0 0`\n";
    assert!(told.contains(due), "{told}");
    assert!(told.ends_with("program cat, port: 0 cases agree, 419 differ\n"), "{told}");
    assert!(said(&output).starts_with("compare vectors: cases that differ: empty, short order, "));
}

#[test]
fn a_question_that_a_program_does_not_take_is_named_and_no_difference() {
    let files = ["morning", "open", "sites", "page", "desk", "join", "turns", "cheapest"];
    for file in files.map(|name| format!("{name}.txt")) {
        let output = compare(&["vectors", &vectors(&file), "--program", "cat"]);
        assert_eq!(output.status.code(), Some(0), "{}", said(&output));
        let told = String::from_utf8_lossy(&output.stdout);
        assert!(told.contains("\nnot asked of the program cat (250): 0, 1, 2, 3, "), "{told}");
        let last = "program cat, port: 250 cases agree, 0 differ\n";
        assert!(told.ends_with(last), "{told}");
    }
}

/// Standard input that comes back as it was is no page.
#[test]
fn a_page_that_differs_is_named() {
    let programs = ["--program", "cat", "--page-program", "cat"];
    let output = compare(&[&["vectors", &vectors("page.txt")], &programs[..]].concat());
    assert_eq!(output.status.code(), Some(1));
    let told = String::from_utf8_lossy(&output.stdout);
    let last = "programs cat and cat, port: 0 cases agree, 250 differ\n";
    assert!(told.ends_with(last), "{told}");
}

#[test]
fn cases_are_framed_from_several_files() {
    let folder = env!("CARGO_TARGET_TMPDIR");
    let files = ["page.txt", "page_lines.txt"].map(vectors);
    let output = compare(&["framed", &files[0], &files[1], folder]);
    assert_eq!(output.status.code(), Some(0), "{}", said(&output));
    let stored = |name: &str| std::fs::read(Path::new(folder).join(name)).unwrap();
    assert_eq!(stored("stdin")[0], 1);
    let whole = std::fs::read(vectors("../../crates/vectors/stdout")).unwrap();
    assert!(whole.ends_with(&stored("stdout")));
    let output = compare(&["framed", &files[0], "no-such-file", folder]);
    assert_eq!(output.status.code(), Some(1));
    assert!(said(&output).starts_with("compare framed: no-such-file: "), "{}", said(&output));
}

#[test]
fn a_missing_file_of_vectors_fails_and_is_named() {
    let output = compare(&["vectors", &vectors("p01.txt"), "no-such-file", "--program", "cat"]);
    assert_eq!(output.status.code(), Some(1));
    assert!(said(&output).starts_with("compare vectors: no-such-file: "), "{}", said(&output));
}

#[test]
fn the_last_line_on_tallies_has_the_counts() {
    let output = compare(&["tallies", "--seed", "3", "--books", "20"]);
    assert_eq!(output.status.code(), Some(0), "{}", said(&output));
    let told = String::from_utf8_lossy(&output.stdout);
    let last = told.lines().last().unwrap_or_default();
    assert!(last.starts_with("20 books of seed 3 and 26 small books, "), "{told}");
    assert!(last.contains(" words of tallies and index compared, no difference, in "), "{told}");
}

#[test]
fn a_bad_command_line_ends_with_2() {
    let bad: [&[&str]; 9] = [
        &[],
        &["check"],
        &["vectors"],
        &["vectors", "a", "--page-program", "cat"],
        &["framed"],
        &["framed", "a"],
        &["differential", "--seed", "x"],
        &["bench", "a"],
        &["tallies", "a"],
    ];
    for words in bad {
        assert_eq!(compare(words).status.code(), Some(2), "{words:?}");
    }
}
