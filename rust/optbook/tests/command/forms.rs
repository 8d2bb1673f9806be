//! Where nothing is checked: the forms of a book there and back, mistakes, bad command lines and the
//! help.

use crate::run::{optbook, CAN, DOSING, DRYING, PLANT, PRICES};

const VERBS: [&str; 16] = [
    "check",
    "morning",
    "open",
    "sites",
    "explain",
    "page",
    "desk",
    "join",
    "renumber",
    "turns",
    "cheapest",
    "worst",
    "bytes",
    "text",
    "dimacs",
    "from-dimacs",
];

#[test]
fn the_plant_goes_to_bytes_and_back() {
    let bytes = optbook(&["bytes", PLANT, CAN], b"").printed;
    assert_eq!(bytes.len(), 24 + 3 + 16 * 15);
    assert_eq!(bytes[24..27], [12, 15, 0]);
    assert_eq!(bytes[..8], [0x01, 0x08, 0, 0, 0, 0, 0, 0]);
    assert_eq!(bytes[8..16], [0, 0x01, 0, 0, 0, 0, 0, 0]);
    assert_eq!(bytes[16..24], [0, 0x02, 0, 0, 0, 0, 0, 0]);
    let ended = optbook(&["text", "-", "--names", PLANT], &bytes);
    let text = ended.text();
    assert!(text.contains("\n!drum | ring_main | twin_header\n"), "{text}");
    let order = "standard: leachate_tank\nwant: drum screen\nwithout: scrubber\n";
    assert!(text.ends_with(order), "{text}");
    assert_eq!(optbook(&["bytes", "-"], text.as_bytes()).printed, bytes);
}

#[test]
fn options_without_names_are_numbered() {
    let text = b"options: a b\n!b\nwant: a\nstandard: b a\n";
    let bytes = optbook(&["bytes", "-"], text).printed;
    let due = "options: x1 x2\n!x2\nstandard: x1 x2\nwant: x1\n";
    assert_eq!(optbook(&["text", "-"], &bytes).text(), due);
}

#[test]
fn a_book_goes_to_dimacs_and_back() {
    let ended = optbook(&["dimacs", "-"], b"options: a b\na | !b\nwant: b\n");
    assert_eq!(ended.text(), "c 1 is a\nc 2 is b\np cnf 2 2\n1 -2 0\n2 0\n");
    assert_eq!(ended.status, 0);
    let back = optbook(&["from-dimacs", "-"], &ended.printed);
    assert_eq!(back.text(), "options: x1 x2\nx1 | !x2\nx2\n");
    let plant = optbook(&["dimacs", PLANT], b"");
    let back = optbook(&["from-dimacs", "-", "--names", PLANT], &plant.printed);
    let bytes = optbook(&["bytes", PLANT], b"").printed;
    let text = optbook(&["text", "-", "--names", PLANT], &bytes);
    assert_eq!(back.text(), text.text().replace("standard: leachate_tank", "leachate_tank"));
}

#[test]
fn the_wishes_in_dimacs_are_those_of_the_completed_order() {
    let ended = optbook(&["dimacs", "-"], b"options: a b c\nstandard: a b c\nb\nwithout: b\n");
    assert!(ended.text().ends_with("p cnf 3 4\n2 0\n1 0\n-2 0\n3 0\n"), "{}", ended.text());
}

#[test]
fn a_clause_that_is_always_kept_is_left_out_and_told() {
    let ended = optbook(&["from-dimacs", "-"], b"p cnf 2 2\n1 -1 0\n2 0\n");
    let due = "# left out, for it is always kept: the clause that ends on line 2\n\
               options: x1 x2\nx2\n";
    assert_eq!((ended.text(), ended.status), (due, 0));
}

#[test]
fn a_mistake_is_told_once_with_file_line_and_what_was_expected() {
    let verbs =
        ["check", "morning", "open", "sites", "explain", "page", "turns", "bytes", "dimacs"];
    for verb in verbs {
        let ended = optbook(&[verb, PLANT, "-"], b"\nwant: dram\n");
        let due = "optbook: standard input: line 2: no option is named `dram`: expected a name of \
                   an `options:` line\n";
        assert_eq!((ended.said.as_str(), ended.status), (due, 65), "{verb}");
        assert!(ended.printed.is_empty());
    }
    let ended = optbook(&["bytes", PLANT, "-"], b"standard: roof leachate_tank\n");
    let due =
        "optbook: standard input: line 1: `leachate_tank` stands twice as standard: expected \
               it once\n";
    assert_eq!((ended.said.as_str(), ended.status), (due, 65));
    let ended = optbook(&["from-dimacs", "-"], b"p cnf 65 0\n");
    let due = "optbook: standard input: line 1: 65 variables: expected at most 64\n";
    assert_eq!((ended.said.as_str(), ended.status), (due, 65));
}

#[test]
fn an_order_of_a_morning_or_of_a_site_has_no_options_and_no_rules() {
    let due = [
        (&b"options: pump\n"[..], "line 1: `options:` stands in an order"),
        (b"want: drum\n\ndrum | screen # or\n", "line 3: a rule stands in an order"),
        (b"false\n", "line 1: a rule stands in an order"),
    ];
    for verb in ["morning", "sites"] {
        for (order, what) in due {
            let ended = optbook(&[verb, PLANT, CAN, "-"], order);
            let shared = "expected it in the book, which all orders share";
            let due = format!("optbook: standard input: {what}: {shared}\n");
            assert_eq!((ended.said, ended.status), (due, 65));
            assert!(ended.printed.is_empty());
        }
        let ended = optbook(&[verb, PLANT, CAN, "no-such-file"], b"");
        assert!(ended.said.starts_with("optbook: no-such-file: "), "{}", ended.said);
        assert_eq!(ended.status, 65);
    }
}

#[test]
fn a_mistake_in_the_names_of_open_options_is_told() {
    let due = [
        (&["roof", "dram"][..], "no option is named `dram`: expected a name of an `options:` line"),
        (&["roof", "tunnel", "roof"], "`roof` stands twice: expected it once"),
        (
            &["2nd"],
            "`2nd` is no option's name: expected letters, digits and underscores, with no digit \
             first",
        ),
    ];
    for (names, what) in due {
        let ended = optbook(&[&["open", PLANT, CAN][..], names].concat(), b"");
        assert_eq!((ended.said, ended.status), (format!("optbook: NAMES: {what}\n"), 65));
        assert!(ended.printed.is_empty());
    }
}

#[test]
fn a_mistake_in_the_book_of_a_desk_is_told_before_a_command_is_read() {
    let ended = optbook(&["desk", "-", "no-such-file"], b"options: a\nwant: b\n");
    let due = "optbook: standard input: line 2: no option is named `b`: expected a name of an \
               `options:` line\n";
    assert_eq!((ended.said.as_str(), ended.status), (due, 65));
    assert!(ended.printed.is_empty());
}

#[test]
fn a_mistake_in_the_books_to_join_is_told() {
    let words = |names| ["join", DOSING, "-", names];
    let ended = optbook(&words("steam=steam"), b"options: steam\nsteam | vapour\n");
    let due = "optbook: standard input: line 2: no option is named `vapour`: expected a name of \
               an `options:` line\n";
    assert_eq!((ended.said.as_str(), ended.status), (due, 65));
    let ended = optbook(&words("steam=vapor"), b"options: vapour\n");
    let due = "optbook: PAIRS: standard input: no option is named `vapor`: expected a name of an \
               `options:` line\n";
    assert_eq!((ended.said.as_str(), ended.status), (due, 65));
    let ended = optbook(&words("stem=vapour"), b"options: vapour\n");
    let due = "optbook: PAIRS: examples/dosing.book: no option is named `stem`: expected a name \
               of an `options:` line\n";
    assert_eq!((ended.said.as_str(), ended.status), (due, 65));
    assert!(ended.printed.is_empty());
    let ended = optbook(&["join", DOSING, "no-such-file"], b"");
    assert!(ended.said.starts_with("optbook: no-such-file: "), "{}", ended.said);
    assert_eq!(ended.status, 65);
}

#[test]
fn a_name_of_both_books_that_is_not_paired_is_told() {
    let ended = optbook(&["join", DOSING, DRYING, "cabinet=panel"], b"");
    let due = "optbook: PAIRS: both books name water steam, and no pair takes them as one: expected \
               `water=water` or `--same-names` where they are the same thing, and else other names in \
               one of the books\n";
    assert_eq!((ended.said.as_str(), ended.status), (due, 65));
    assert!(ended.printed.is_empty());
    let ended = optbook(&["join", DOSING, DRYING, "steam=panel", "--same-names"], b"");
    let due = "optbook: PAIRS: both books name steam, and no pair takes them as one: expected \
               other names in one of the books\n";
    assert_eq!((ended.said.as_str(), ended.status), (due, 65));
}

#[test]
fn a_mistake_in_the_prices_is_told() {
    let due = [
        (
            &b"# prices\nprice: dram 7\n"[..],
            "line 2: no option is named `dram`: expected a name of an `options:` line",
        ),
        (
            b"price: drum 7.5\n",
            "line 1: `7.5` is no amount: expected cents, as in 125000, or two digits after a point, \
             as in 1250.00",
        ),
        (b"rebate: 0\nrebate: 0\n", "line 2: a second `rebate:` line: expected one"),
        (
            b"price: drum 99999999999999999999\n",
            "line 1: `99999999999999999999` does not fit 64 bits: expected at most 10000000 cents",
        ),
        (
            b"rebate: 0\nprice: drum 7\nprice: screen 8.00\n",
            "line 3: the prices end without one for windrows tunnel ring_main twin_header \
             small_blower large_blower biofilter scrubber leachate_tank roof: expected a `price:` \
             line for each option",
        ),
        (b"\xff", "line 1: a byte that is no text: expected UTF-8"),
    ];
    for (prices, what) in due {
        let ended = optbook(&["cheapest", PLANT, CAN, "-"], prices);
        let due = format!("optbook: standard input: {what}\n");
        assert_eq!((ended.said, ended.status), (due, 65));
        assert!(ended.printed.is_empty());
    }
    let ended = optbook(&["cheapest", PLANT, "-", PRICES], b"price: drum 7\n");
    let due = "optbook: standard input: line 1: `price:` is unknown: expected `options:`, \
               `standard:`, `want:`, `without:` or a rule\n";
    assert_eq!((ended.said.as_str(), ended.status), (due, 65));
    let ended = optbook(&["cheapest", PLANT, CAN, "no-such-file"], b"");
    assert!(ended.said.starts_with("optbook: no-such-file: "), "{}", ended.said);
    assert_eq!(ended.status, 65);
}

#[test]
fn a_mistake_in_a_price_that_would_be_is_told() {
    let amount = "expected cents, as in 125000, or two digits after a point, as in 1250.00";
    let due = [
        ("dram=7", "no option is named `dram`: expected a name of an `options:` line"),
        ("drum=7.5", &format!("`7.5` is no amount: {amount}")),
        ("drum=7=8", &format!("`7=8` is no amount: {amount}")),
        ("drum=7\n8", &format!("`7?8` is no amount: {amount}")),
    ];
    for (word, what) in due {
        let ended = optbook(&["cheapest", PLANT, CAN, PRICES, "--what-if", word], b"");
        assert_eq!((ended.said, ended.status), (format!("optbook: --what-if: {what}\n"), 65));
        assert!(ended.printed.is_empty());
    }
}

#[test]
fn what_cannot_be_read_is_told_with_its_file() {
    let ended = optbook(&["bytes", "no-such-file"], b"");
    assert!(ended.said.starts_with("optbook: no-such-file: "), "{}", ended.said);
    assert_eq!((ended.said.lines().count(), ended.status), (1, 65));
    let ended = optbook(&["bytes", "-"], b"options: a\n\n\xff\n");
    let due = "optbook: standard input: line 3: a byte that is no text: expected UTF-8\n";
    assert_eq!((ended.said.as_str(), ended.status), (due, 65));
}

#[test]
fn bytes_that_are_no_book_are_told() {
    let ended = optbook(&["text", "-"], &[0; 26]);
    let due = "optbook: standard input: an order and a book take 27 bytes or more, not 26\n";
    assert_eq!((ended.said.as_str(), ended.status), (due, 65));
    let mut above = [0; 27];
    above[16] = 1;
    let ended = optbook(&["text", "-"], &above);
    let due = "optbook: standard input: a standard option is above 0\n";
    assert_eq!((ended.said.as_str(), ended.status), (due, 65));
    let ended = optbook(&["text", "-", "--names", PLANT], &[0; 27]);
    let due = "optbook: examples/plant.book: 12 names: expected 0\n";
    assert_eq!((ended.said.as_str(), ended.status), (due, 65));
}

#[test]
fn a_bad_command_line_ends_with_64_and_says_how() {
    let due = [
        (&["check"][..], "0 files are given: expected 1 at least and 2 at most"),
        (&["check", "a", "b", "c"], "3 files are given: expected 1 at least and 2 at most"),
        (&["text", "a", "b"], "2 files are given: expected 1"),
        (&["morning"], "0 files are given: expected 1 at least"),
        (&["morning", PLANT, "--names", PLANT], "`--names` is unknown here"),
        (&["open", PLANT], "1 files are given: expected 2 at least"),
        (&["sites", "--places", "7"], "0 files are given: expected 1 at least"),
        (&["sites", PLANT, CAN, "--sites", "2"], "`--sites` is unknown here"),
        (&["page"], "0 files are given: expected 1 at least and 2 at most"),
        (&["page", PLANT, CAN, CAN], "3 files are given: expected 1 at least and 2 at most"),
        (&["page", PLANT, "--places", "7"], "`--places` is unknown here"),
        (
            &["page", PLANT, "--allowance", "-1"],
            "`--allowance -1`: expected a number from 0 to 4294967295",
        ),
        (&["desk"], "0 files are given: expected 1 at least and 2 at most"),
        (&["desk", PLANT, CAN, CAN], "3 files are given: expected 1 at least and 2 at most"),
        (&["desk", "-", "-"], "`-` stands twice: standard input is read once"),
        (
            &["desk", "-"],
            "`-` is BOOK, and the commands come from standard input too: expected FILE",
        ),
        (&["desk", PLANT, "--drafts", "3"], "`--drafts` is unknown here"),
        (&["join", DOSING], "1 files are given: expected 2 at least"),
        (&["join", "-", "-"], "`-` stands twice: standard input is read once"),
        (
            &["join", DOSING, DRYING, "steam"],
            "`steam` is no pair: expected NAME=NAME, an option of FIRST and the same of SECOND",
        ),
        (
            &["join", "no-such-file", DRYING, "cabinet=panel", "steam=steam=steam"],
            "`steam=steam=steam` is no pair: expected NAME=NAME, an option of FIRST and the same of \
             SECOND",
        ),
        (&["join", DOSING, DRYING, "--pairs", "a=b"], "`--pairs` is unknown here"),
        (
            &["join", DOSING, "--same-names", DRYING, "--same-names"],
            "`--same-names` is given twice: expected it once",
        ),
        (&["turns"], "0 files are given: expected 1 at least and 2 at most"),
        (&["turns", PLANT, CAN, CAN], "3 files are given: expected 1 at least and 2 at most"),
        (&["turns", "-", "-"], "`-` stands twice: standard input is read once"),
        (&["turns", PLANT, "--allowance", "7"], "`--allowance` is unknown here"),
        (&["cheapest", PLANT, PRICES], "2 files are given: expected 3"),
        (&["cheapest", PLANT, CAN, PRICES, PRICES], "4 files are given: expected 3"),
        (&["cheapest", PLANT, "-", "-"], "`-` stands twice: standard input is read once"),
        (&["cheapest", PLANT, CAN, PRICES, "--rebate", "5"], "`--rebate` is unknown here"),
        (
            &["cheapest", PLANT, CAN, PRICES, "--what-if"],
            "nothing stands after `--what-if`: expected its value",
        ),
        (
            &["cheapest", PLANT, CAN, PRICES, "--what-if", "drum=7", "--what-if", "roof=7"],
            "`--what-if` is given twice: expected it once",
        ),
        (
            &["cheapest", "no-such-file", CAN, PRICES, "--what-if", "drum"],
            "`--what-if drum`: expected NAME=PRICE, an option and what it would cost",
        ),
        (
            &["cheapest", PLANT, CAN, PRICES, "--what-if", "drum="],
            "`--what-if drum=`: expected NAME=PRICE, an option and what it would cost",
        ),
        (
            &["cheapest", PLANT, CAN, PRICES, "--what-if", "=7"],
            "`--what-if =7`: expected NAME=PRICE, an option and what it would cost",
        ),
        (&["check", PLANT, "--same-names"], "`--same-names` is unknown here"),
        (&["check", "-", "-"], "`-` stands twice: standard input is read once"),
        (&["bytes", PLANT, "--places", "1"], "`--places` is unknown here"),
        (
            &["check", PLANT, "--allowance"],
            "nothing stands after `--allowance`: expected its value",
        ),
        (
            &["check", PLANT, "--allowance", "4294967296"],
            "`--allowance 4294967296`: expected a number from 0 to 4294967295",
        ),
        (
            &["explain", PLANT, "--places", "all"],
            "`--places all`: expected a number from 0 to 65535",
        ),
    ];
    for (words, what) in due {
        let ended = optbook(words, b"");
        let (said, usage) = ended.said.split_once('\n').unwrap();
        assert_eq!((said, ended.status), (format!("optbook: {what}").as_str(), 64), "{words:?}");
        assert!(usage.starts_with(&format!("usage: optbook {} ", words[0])), "{usage}");
    }
    let ended = optbook(&["read"], b"");
    let due = format!("optbook: `read` is no verb: expected one of {}\n", VERBS.join(", "));
    assert!(ended.said.starts_with(&due), "{}", ended.said);
    assert_eq!((ended.status, optbook(&[], b"").status), (64, 64));
}

#[test]
fn the_help_has_an_example_of_each_verb() {
    let help = optbook(&["--help"], b"");
    assert_eq!(help.status, 0);
    for verb in VERBS {
        assert!(help.text().matches(&format!("optbook {verb} ")).count() >= 2, "{}", help.text());
        let of_verb = optbook(&[verb, "--help"], b"");
        assert!(of_verb.text().starts_with(&format!("optbook {verb} ")), "{}", of_verb.text());
        assert!(of_verb.text().contains("\nExit status: 0"), "{}", of_verb.text());
        assert_eq!(of_verb.status, 0);
    }
}

#[cfg(not(feature = "proved"))]
#[test]
fn without_the_library_nothing_is_answered() {
    for verb in ["check", "morning", "open", "sites", "explain", "page", "desk", "turns"] {
        let ended = optbook(&[verb, PLANT, CAN], b"");
        assert!(ended.said.starts_with("optbook: built without the proved library"));
        assert_eq!((ended.status, ended.printed.len()), (69, 0));
    }
    let others = [
        &["join", DOSING, DRYING, "cabinet=panel", "--same-names"][..],
        &["cheapest", PLANT, CAN, PRICES],
        &["cheapest", PLANT, CAN, PRICES, "--what-if", "drum=7"],
    ];
    for words in others {
        let ended = optbook(words, b"");
        assert!(ended.said.starts_with("optbook: built without the proved library"));
        assert_eq!((ended.status, ended.printed.len()), (69, 0));
    }
}
