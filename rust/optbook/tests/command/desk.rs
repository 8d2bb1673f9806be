//! The verb `desk`, through the proved library and a pipe. tests/desk has it at a terminal.

use crate::run::{file, optbook, Ended, PLANT};
use optbook::command::HELP;
use std::io::Write;
use std::path::Path;
use std::process::{Command, Stdio};

/// A session at the plant's desk, whose commands come through a pipe.
fn desk(commands: &str) -> Ended {
    optbook(&["desk", PLANT], commands.as_bytes())
}

/// What `optbook check` prints of the plant with this order.
fn checked(order: &str) -> String {
    optbook(&["check", PLANT, "-"], order.as_bytes()).text().to_string()
}

/// The names of the plant's options.
const NAMES: &str = "drum windrows tunnel ring_main twin_header small_blower large_blower \
                     biofilter scrubber leachate_tank roof screen";

const DRAFT: &str = "want drum screen; without scrubber";

/// What the session of the example prints.
fn of_example() -> String {
    let can = checked("want: drum screen\nwithout: scrubber\n");
    let cannot = checked("want: tunnel screen\nwithout: scrubber\n");
    assert!(can.starts_with("can be built: ") && cannot.starts_with("cannot be built: "));
    format!(
        "order: want drum screen; without (none)\n\
         order: {DRAFT}\n\
         draft 3: {DRAFT}\n\
         {can}\
         order: want screen; without scrubber\n\
         order: want tunnel screen; without scrubber\n\
         {cannot}\
         order: {DRAFT}\n\
         order: {DRAFT}\n\
         standard: leachate_tank\n\
         draft 3: {DRAFT}\n"
    )
}

#[test]
fn the_example_of_the_help_comes_back_to_draft_3() {
    let example = "optbook desk examples/plant.book examples/plant.desk";
    let help = optbook(&["desk", "--help"], b"");
    assert!(help.text().contains(&format!("\n  {example}\n")), "{}", help.text());
    let words: Vec<&str> = example.split(' ').skip(1).collect();
    let ended = optbook(&words, b"want dram\n");
    assert_eq!((ended.text(), ended.said.as_str()), (of_example().as_str(), ""));
    assert_eq!(ended.status, 0);
}

#[test]
fn commands_come_from_a_file_or_through_a_pipe() {
    let project = Path::new(env!("CARGO_MANIFEST_DIR")).join("../..");
    let commands = std::fs::read_to_string(project.join("examples/plant.desk")).unwrap();
    for words in [&["desk", PLANT][..], &["desk", PLANT, "-"]] {
        let ended = optbook(words, commands.as_bytes());
        assert_eq!((ended.text(), ended.status), (of_example().as_str(), 0));
    }
    let book = std::fs::read(project.join(PLANT)).unwrap();
    let ended = optbook(&["desk", "-", "examples/plant.desk"], &book);
    assert_eq!((ended.text(), ended.status), (of_example().as_str(), 0));
}

/// Each mistake stands where its answer would, and what follows goes on as if its line were not there.
#[test]
fn each_mistake_is_told_on_a_line_of_its_own_and_alters_nothing() {
    let ended = desk(
        "# a buyer\n\
         want drum\n\
         wnat roof\n\
         want roof dram\n\
         want\n\
         without roof roof\n\
         return 4\n\
         keep 0\n\
         keep 17\n\
         return 99999999999999\n\
         keep three\n\
         keep\n\
         keep 3 4\n\
         check it\n\
         \n\
         keep 16\n\
         return 4\n\
         clear drum\n\
         clear drum roof\n\
         return 16\n\
         show\n\
         quit\n\
         want roof\n",
    );
    let draft = "expected a draft, 1 to 16, as in `keep 3`";
    let fourteen = "refused, number 14: the draft's number is not 1 to 16: expected one of these";
    let fifteen = "refused, number 15: that draft was never kept: expected";
    let due = format!(
        "order: want drum; without (none)\n\
         line 3: `wnat` is no command: expected want, without, clear, keep, return, check, show, help \
         or quit\n\
         line 4: no option is named `dram`: expected a name of the book, which `help` lists\n\
         line 5: `want` names no option: expected one or more after it\n\
         line 6: `roof` stands twice: expected it once\n\
         line 7: {fifteen} `keep` before it, for none is kept yet\n\
         line 8: {fourteen}\n\
         line 9: {fourteen}\n\
         line 10: {fourteen}\n\
         line 11: `three` is no number: {draft}\n\
         line 12: `keep` has no number: {draft}\n\
         line 13: more than one word stands after `keep`: {draft}\n\
         line 14: other words stand after `check`: expected it alone on its line\n\
         draft 16: want drum; without (none)\n\
         line 17: {fifteen} a kept one, of 16\n\
         order: want (none); without (none)\n\
         order: want (none); without (none)\n\
         order: want drum; without (none)\n\
         order: want drum; without (none)\n\
         standard: leachate_tank\n\
         draft 16: want drum; without (none)\n"
    );
    assert_eq!(ended.text(), due);
    let said = "optbook: standard input: 13 lines are mistakes, and line 3 is the first\n";
    assert_eq!((ended.said.as_str(), ended.status), (said, 65));
}

#[test]
fn a_wish_for_the_other_replaces_a_wish() {
    let ended = desk("want drum roof\nwithout drum\nwant drum\nclear tunnel\n");
    let due = "order: want drum roof; without (none)\n\
               order: want roof; without drum\n\
               order: want drum roof; without (none)\n\
               order: want drum roof; without (none)\n";
    assert_eq!((ended.text(), ended.status), (due, 0));
}

#[test]
fn sixteen_drafts_are_kept_and_each_comes_back() {
    let names: Vec<&str> = NAMES.split(' ').collect();
    let mut commands = String::new();
    for draft in 1..=16 {
        let word = if draft % 2 == 0 { "want" } else { "without" };
        commands += &format!("{word} {}\nkeep {draft}\n", names[draft % 12]);
    }
    let kept = desk(&commands);
    let lines: Vec<&str> = kept.text().lines().collect();
    for draft in 1..=16 {
        let ended = desk(&format!("{commands}clear {NAMES}\nreturn {draft}\n"));
        let returned = ended.text().lines().last().unwrap();
        let due = lines[2 * draft - 1];
        assert_eq!(returned.replace("order:", &format!("draft {draft}:")), due);
        assert_eq!(ended.status, 0);
    }
}

#[test]
fn wishes_of_the_book_are_set_first() {
    let book = file("wishes.book", "options: a b\n!a | !b\nstandard: b\nwant: a\nwithout: b\n");
    let ended = optbook(&["desk", &book], b"show\ncheck\nclear b\ncheck\n");
    let lines: Vec<&str> = ended.text().lines().collect();
    assert_eq!(lines[..2], ["order: want a; without b", "standard: b"]);
    assert!(lines[2].starts_with("can be built: "), "{}", ended.text());
    let cleared = lines.iter().position(|line| *line == "order: want a; without (none)").unwrap();
    assert!(lines[cleared + 1].starts_with("cannot be built: "), "{}", ended.text());
    assert_eq!(ended.status, 0);
}

#[test]
fn a_check_has_the_limits_of_the_command_line() {
    let book = file("pair.book", "options: a\na\n!a\n");
    let first = |flags: &[&str]| {
        let ended = optbook(&[&["desk", &book][..], flags].concat(), b"check\n");
        assert_eq!(ended.status, 0);
        ended.text().split(':').next().unwrap().to_string()
    };
    assert_eq!(first(&[]), "cannot be built");
    assert_eq!(first(&["--allowance", "0"]), "stopped without a verdict, number 10");
    assert_eq!(first(&["--places", "0"]), "stopped without a verdict, number 11");
    assert_eq!(first(&["--places", "2049"]), "refused, number 9");
}

#[test]
fn the_help_has_the_commands_and_the_options() {
    let ended = desk("help\n");
    let due = format!("{HELP}options: {NAMES}\n");
    assert_eq!((ended.text(), ended.status), (due.as_str(), 0));
}

#[test]
fn the_last_line_need_not_end() {
    for (commands, due) in [
        ("want drum", "order: want drum; without (none)\n"),
        ("quit", ""),
        ("# nothing", ""),
        ("", ""),
    ] {
        let ended = desk(commands);
        assert_eq!((ended.text(), ended.status), (due, 0));
    }
    let ended = desk("want drum\nwithout dr");
    assert!(ended.text().contains("\nline 2: no option is named `dr`: "), "{}", ended.text());
    let said = "optbook: standard input: line 2 is a mistake\n";
    assert_eq!((ended.said.as_str(), ended.status), (said, 65));
}

#[test]
fn lines_that_are_no_text_or_too_long_do_not_hold_up_others() {
    let mut commands = b"want drum\n\xff\xfe want roof\nwant ".to_vec();
    commands.extend(vec![b'x'; 1 << 20]);
    commands.extend(b"\nwant \x1b[2J\0\nshow\n");
    let ended = optbook(&["desk", PLANT], &commands);
    let due = "order: want drum; without (none)\n\
               line 2: a byte that is no text: expected UTF-8\n\
               line 3: the line has more than 65536 bytes: expected a shorter one\n\
               line 4: no option is named `?[2J?`: expected a name of the book, which `help` lists\n\
               order: want drum; without (none)\n\
               standard: leachate_tank\n";
    assert_eq!((ended.text(), ended.status), (due, 65));
    let names = format!("want {}\n", "drum ".repeat(13_000));
    let ended = desk(&names);
    assert_eq!(ended.text(), "line 1: `drum` stands twice: expected it once\n");
}

#[test]
fn what_cannot_be_read_is_told_with_its_file() {
    let ended = optbook(&["desk", PLANT, "no-such-file"], b"");
    assert!(ended.said.starts_with("optbook: no-such-file: "), "{}", ended.said);
    assert_eq!((ended.text(), ended.status), ("", 65));
    let ended = optbook(&["desk", PLANT, "examples"], b"");
    assert!(ended.said.starts_with("optbook: examples: "), "{}", ended.said);
    assert_eq!((ended.text(), ended.status), ("", 65));
}

/// Runs a session whose answers go where this says, and gives its status and what it said.
fn with_output(output: Stdio, commands: &str, read: bool) -> (i32, String) {
    let mut command = Command::new(env!("CARGO_BIN_EXE_optbook"));
    command.args(["desk", PLANT]);
    command.current_dir(Path::new(env!("CARGO_MANIFEST_DIR")).join("../.."));
    let mut child =
        command.stdin(Stdio::piped()).stdout(output).stderr(Stdio::piped()).spawn().unwrap();
    if !read {
        drop(child.stdout.take());
    }
    let _ = child.stdin.take().unwrap().write_all(commands.as_bytes());
    let output = child.wait_with_output().unwrap();
    (output.status.code().unwrap(), String::from_utf8(output.stderr).unwrap())
}

#[test]
fn closed_and_full_outputs_are_no_panic() {
    let many = "want drum\nclear drum\n".repeat(5000);
    assert_eq!(with_output(Stdio::piped(), &many, false), (0, String::new()));
    let full = std::fs::File::options().write(true).open("/dev/full").unwrap();
    let (status, said) = with_output(full.into(), &many, true);
    assert!(said.starts_with("optbook: standard output: "), "{said}");
    assert_eq!((status, said.lines().count()), (74, 1));
}

/// The answer to a command comes before the next one is read.
#[test]
fn answers_do_not_wait_for_the_end() {
    use std::io::{BufRead, BufReader};
    let mut command = Command::new(env!("CARGO_BIN_EXE_optbook"));
    command.args(["desk", PLANT]);
    command.current_dir(Path::new(env!("CARGO_MANIFEST_DIR")).join("../.."));
    let mut child = command.stdin(Stdio::piped()).stdout(Stdio::piped()).spawn().unwrap();
    let mut input = child.stdin.take().unwrap();
    let mut output = BufReader::new(child.stdout.take().unwrap());
    let mut ask = |command: &str| {
        input.write_all(command.as_bytes()).unwrap();
        let mut line = String::new();
        output.read_line(&mut line).unwrap();
        line
    };
    assert_eq!(ask("want drum\n"), "order: want drum; without (none)\n");
    assert_eq!(ask("keep 3\n"), "draft 3: want drum; without (none)\n");
    assert_eq!(ask("clear drum\n"), "order: want (none); without (none)\n");
    assert_eq!(ask("return 3\n"), "order: want drum; without (none)\n");
    drop(input);
    assert_eq!(child.wait().unwrap().code(), Some(0));
}
