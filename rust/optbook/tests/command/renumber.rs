//! The verb `renumber`, and the verdicts on what was read and on what is printed, through the proved library.

use crate::run::{file, optbook, Ended, CAN, PLANT};
use optbook::sheet::Sheet;
use optbook::text::numbered_names;
use optbook::Order;

const EXAMPLE: &str = "optbook renumber examples/plant.book roof dry --order \
                       examples/plant_cannot.order --reverse scrubber=dry";

/// Renumbers a text: with these names, the order in this file, and these pairs of a reversal.
fn renumber(text: &str, names: &[&str], order: Option<&str>, pairs: &[&str]) -> Ended {
    let order = order.iter().flat_map(|&order| ["--order", order]);
    let pairs = pairs.iter().flat_map(|&pair| ["--reverse", pair]);
    let words = ["renumber", "-"].into_iter().chain(names.iter().copied());
    optbook(&words.chain(order).chain(pairs).collect::<Vec<_>>(), text.as_bytes())
}

/// What is printed, read back.
pub fn sheet(ended: &Ended) -> Sheet {
    assert_eq!((ended.said.as_str(), ended.status), ("", 0));
    Sheet::of("anew", ended.text()).unwrap()
}

/// What is printed, without comments.
fn lines(ended: &Ended) -> Vec<&str> {
    assert_eq!((ended.said.as_str(), ended.status), ("", 0));
    let lines = ended.text().lines().map(|line| line.split('#').next().unwrap().trim());
    lines.filter(|line| !line.is_empty()).collect()
}

/// What is said of a mistake; nothing is printed.
fn mistake(ended: &Ended) -> &str {
    assert_eq!((ended.text(), ended.status), ("", 65));
    ended.said.strip_prefix("optbook: ").unwrap().strip_suffix('\n').unwrap()
}

#[test]
fn the_example_of_the_help_is_printed_with_places() {
    let help = optbook(&["renumber", "--help"], b"");
    assert!(help.text().contains(&format!("\n  {EXAMPLE}\n")), "{}", help.text());
    let words: Vec<&str> = EXAMPLE.split(' ').skip(1).collect();
    let ended = optbook(&words, b"");
    let due = "\
# examples/plant.book and examples/plant_cannot.order renumbered
# reversed: scrubber=dry
options: roof dry drum windrows tunnel ring_main twin_header small_blower large_blower biofilter leachate_tank screen
drum | windrows | tunnel                  # examples/plant.book: line 12
!drum | !tunnel                           # examples/plant.book: line 13
!drum | ring_main | twin_header           # examples/plant.book: line 16
!tunnel | twin_header                     # examples/plant.book: line 17
!ring_main | !twin_header                 # examples/plant.book: line 18
!ring_main | small_blower | large_blower  # examples/plant.book: line 21
!twin_header | large_blower               # examples/plant.book: line 22
!small_blower | !large_blower             # examples/plant.book: line 23
!dry | !small_blower | biofilter          # examples/plant.book: line 26
!dry | !large_blower                      # examples/plant.book: line 27
roof | !windrows | leachate_tank          # examples/plant.book: line 30
dry | leachate_tank                       # examples/plant.book: line 31
roof | !screen                            # examples/plant.book: line 34
!roof | !tunnel                           # examples/plant.book: line 35
windrows | !screen                        # examples/plant.book: line 38
standard: leachate_tank                   # examples/plant.book: line 41
want: tunnel                              # examples/plant_cannot.order: line 4
want: dry                                 # examples/plant_cannot.order: line 5
";
    assert_eq!((ended.text(), ended.said.as_str(), ended.status), (due, "", 0));
}

#[test]
fn without_names_the_numbers_stay() {
    let text = "options: a b\noptions: c\nb | !a\nwant: c\n!c\nstandard: a b\n";
    let ended = renumber(text, &[], None, &[]);
    let due = "# standard input renumbered\n\
               options: a b c\n\
               !a | b       # standard input: line 3\n\
               want: c      # standard input: line 4\n\
               !c           # standard input: line 5\n\
               standard: a  # standard input: line 6\n\
               standard: b  # standard input: line 6\n";
    assert_eq!((ended.text(), ended.status), (due, 0));
    let due = ["options: x b c", "x | b", "want: c", "!c", "standard: b", "want: x"];
    let without = format!("{text}without: a\n");
    assert_eq!(lines(&renumber(&without, &[], None, &["a=x"])), due);
}

#[test]
fn the_order_is_read_after_the_book_as_a_check_reads_it() {
    let order = b"drum | !roof\nwant: roof\n";
    let ended = optbook(&["renumber", PLANT, "roof", "--order", "-"], order);
    let start = "# examples/plant.book and standard input renumbered\noptions: roof drum windrows ";
    assert!(ended.text().starts_with(start), "{}", ended.text());
    let end = "\n!roof | drum                              # standard input: line 1\n\
               want: roof                                # standard input: line 2\n";
    assert!(ended.text().ends_with(end), "{}", ended.text());
    let order = file("renumber_more.order", "options: b\n!a | b\nwant: a\n");
    let due = ["options: b a", "b | !a", "want: a"];
    assert_eq!(lines(&renumber("options: a\n", &["b"], Some(&order), &[])), due);
}

#[test]
fn what_has_no_options_or_no_rules_reads_back() {
    let of = |text: &str| {
        let ended = renumber(text, &[], None, &[]);
        (lines(&ended).join("\n"), sheet(&ended).book().rules.len())
    };
    assert_eq!(of(""), (String::new(), 0));
    assert_eq!(of("false\n# nothing\nfalse\n"), ("false\nfalse".to_string(), 2));
    assert_eq!(of("options: a b\n"), ("options: a b".to_string(), 0));
}

#[test]
fn the_largest_book_is_renumbered() {
    let [old, new] = ["x", "y"].map(|letter| -> Vec<String> {
        numbered_names(64).iter().map(|name| name.replace('x', letter)).collect()
    });
    let text = format!("options: {}\n{}", old.join(" "), "x1 | x2 | !x64\n".repeat(1024));
    let pairs: Vec<String> = (1..=64).map(|number| format!("x{number}=y{number}")).collect();
    let pairs: Vec<&str> = pairs.iter().map(String::as_str).collect();
    let names: Vec<&str> = new.iter().rev().map(String::as_str).collect();
    let anew = sheet(&renumber(&text, &names, None, &pairs));
    assert_eq!(anew.names, names);
    let rules = anew.book().rules;
    assert_eq!((rules.len(), rules[0].fitted, rules[1023].left_out), (1024, 1, 3 << 62));
}

/// The wish for a says that it is wanted, and that for b that it is not. The tank of the plant has no wish.
#[test]
fn a_reversed_option_that_is_standard_is_standard_no_more() {
    let text = "options: a b c\nstandard: a b c\nwant: a\nwithout: b\n";
    let ended = renumber(text, &[], None, &["b=y", "a=x"]);
    assert_eq!(lines(&ended), ["options: x y c", "standard: c", "without: x", "want: y"]);
    assert!(ended.text().starts_with("# standard input renumbered\n# reversed: b=y a=x\n"));

    let words = ["renumber", PLANT, "--order", CAN, "--reverse", "leachate_tank=dry_ground"];
    let ended = optbook(&words, b"");
    let end = "without: dry_ground                       # examples/plant.book: line 41\n\
               want: drum                                # examples/plant.order: line 3\n\
               want: screen                              # examples/plant.order: line 3\n\
               without: scrubber                         # examples/plant.order: line 4\n";
    assert!(ended.text().ends_with(end), "{}", ended.text());
    assert!(!ended.text().contains("standard"), "{}", ended.text());
    let order = sheet(&ended).order();
    assert_eq!(order, Order { wanted: 1 | 1 << 11, unwanted: 1 << 8 | 1 << 9, standard: 0 });
}

#[test]
fn a_reversed_option_that_is_standard_takes_an_order_or_a_wish() {
    let pair = "leachate_tank=dry_ground";
    let ended = optbook(&["renumber", PLANT, "--reverse", pair], b"");
    let due = "--reverse: `leachate_tank` is standard, and a book has no word for left out unless \
               wanted: expected `--order ORDER`, which completes it";
    assert_eq!(mistake(&ended), due);
    let ended = optbook(&["renumber", PLANT, "--reverse", pair, "--order", "-"], b"");
    assert_eq!(lines(&ended).last(), Some(&"without: dry_ground"));
    let ended = optbook(&["renumber", PLANT, "--reverse", "roof=open_sky"], b"");
    assert_eq!(lines(&ended).last(), Some(&"standard: leachate_tank"));
}

#[test]
fn a_mistake_in_the_names_is_told() {
    let due = [
        (&["roof", "dram"][..], "no option is named `dram`: expected a name of an `options:` line"),
        (&["roof", "dry", "roof"], "`roof` stands twice: expected it once"),
        (&["dry", "drum", "dry"], "`dry` stands twice: expected it once"),
        (&["roof", "scrubber"], "`scrubber` is reversed: expected its new name, `dry`"),
        (
            &["ro\nof"],
            "`ro?of` is no option's name: expected letters, digits and underscores, with no digit \
             first",
        ),
    ];
    for (names, what) in due {
        let words = [&["renumber", PLANT], names, &["--reverse", "scrubber=dry"]].concat();
        assert_eq!(mistake(&optbook(&words, b"")), format!("NAMES: {what}"));
    }
}

#[test]
fn a_mistake_in_a_reversal_is_told() {
    let name = "expected letters, digits and underscores, with no digit first";
    let due = [
        (&["dram=dry"][..], "no option is named `dram`: expected a name of an `options:` line"),
        (
            &["scrubber=dry", "dry=wet"],
            "no option is named `dry`: expected a name of an `options:` line",
        ),
        (
            &["scrubber=dry", "roof=sky", "scrubber=raw"],
            "`scrubber` is reversed twice: expected it once",
        ),
        (&["scrubber=2nd"], &format!("`2nd` is no option's name: {name}")),
        (&["scrubber=no scrubber"], &format!("`no scrubber` is no option's name: {name}")),
        (&["scrubber=dry\nwant: roof"], &format!("`dry?want: roof` is no option's name: {name}")),
        (
            &["scrubber=false"],
            "`false` is the empty rule and no option: expected it alone on its line",
        ),
        (
            &["scrubber=scrubber"],
            "`scrubber` is reversed and keeps its name, which says the opposite then: expected a \
             new name",
        ),
        (&["scrubber=roof"], "two options are called `roof` then: expected each name once"),
        (
            &["scrubber=dry", "roof=dry"],
            "two options are called `dry` then: expected each name once",
        ),
    ];
    for (pairs, what) in due {
        let pairs: Vec<&str> = pairs.iter().flat_map(|&pair| ["--reverse", pair]).collect();
        let ended = optbook(&[&["renumber", PLANT, "--order", CAN], &pairs[..]].concat(), b"");
        assert_eq!(mistake(&ended), format!("--reverse: {what}"));
    }
    let exchanged = renumber("options: a b\na | b\nwant: a\n", &["a"], None, &["a=b", "b=a"]);
    assert_eq!(lines(&exchanged), ["options: a b", "!a | !b", "without: b"]);
}

#[test]
fn a_mistake_in_the_book_or_the_order_is_told() {
    let ended = optbook(&["renumber", PLANT, "dram", "--order", "-"], b"\nwant: dram\n");
    let what = "no option is named `dram`: expected a name of an `options:` line";
    assert_eq!(mistake(&ended), format!("standard input: line 2: {what}"));
    let ended = renumber("options: a\n!dram\n", &[], Some(CAN), &["drum=x"]);
    assert_eq!(mistake(&ended), format!("standard input: line 2: {what}"));
    for words in [["no-such-file", "--order", CAN], [PLANT, "--order", "no-such-file"]] {
        let ended = optbook(&[&["renumber"], &words[..]].concat(), b"");
        assert!(mistake(&ended).starts_with("no-such-file: "), "{}", ended.said);
    }
}

#[test]
fn a_bad_command_line_is_told() {
    let pair = "expected NAME=NEW, an option and what it is called when it is reversed";
    let due = [
        (&[][..], "0 files are given: expected 1 at least"),
        (&["--order", CAN], "0 files are given: expected 1 at least"),
        (&["-", "--order", "-"], "`-` stands twice: standard input is read once"),
        (&["-", "--reverse", "-"], &format!("`--reverse -`: {pair}")),
        (
            &["no-such-file", "--reverse", "a=b", "--reverse", "c"],
            &format!("`--reverse c`: {pair}"),
        ),
        (&[PLANT, "--reverse", "roof=a=b"], &format!("`--reverse roof=a=b`: {pair}")),
        (&[PLANT, "--reverse", "roof="], &format!("`--reverse roof=`: {pair}")),
        (&[PLANT, "--reverse"], "nothing stands after `--reverse`: expected its value"),
        (&[PLANT, "--order", CAN, "--order", CAN], "`--order` is given twice: expected it once"),
        (&[PLANT, "--names", PLANT], "`--names` is unknown here"),
    ];
    for (words, what) in due {
        let ended = optbook(&[&["renumber"], words].concat(), b"");
        let usage = "optbook renumber BOOK [NAMES...] [--order ORDER] [--reverse NAME=NEW]...";
        let due = format!("optbook: {what}\nusage: {usage}\n");
        assert_eq!((ended.said, ended.status), (due, 64), "{words:?}");
        assert!(ended.printed.is_empty());
    }
}
