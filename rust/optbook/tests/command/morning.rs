//! The verb `morning`, through the proved library.

use crate::run::{file, optbook, Ended, CAN, PLANT};

const CANNOT: &str = "examples/plant_cannot.order";

/// A morning of these orders against a book, each a file of this name and text.
fn morning(book: &str, orders: &[(&str, &str)], flags: &[&str]) -> Ended {
    let files: Vec<String> = orders.iter().map(|(name, text)| file(name, text)).collect();
    let mut words = vec!["morning", "-"];
    words.extend(files.iter().map(String::as_str));
    words.extend(flags);
    optbook(&words, book.as_bytes())
}

/// The endings that are told, in turn.
fn endings(ended: &Ended) -> Vec<&str> {
    let lines: Vec<&str> = ended.text().lines().collect();
    let after_name = lines.windows(2).filter(|two| two[0].starts_with("order: "));
    after_name.map(|two| two[1].split(':').next().unwrap()).collect()
}

#[test]
fn each_order_of_the_plant_is_told_as_a_check_tells_it() {
    let ended = optbook(&["morning", PLANT, CAN, CANNOT, CAN], b"");
    let told = |order: &str| {
        let check = optbook(&["check", PLANT, order], b"");
        format!("order: {order}\n{}", check.text())
    };
    let due = [told(CAN), told(CANNOT), told(CAN)].concat();
    assert_eq!((ended.text(), ended.status), (due.as_str(), 1));
    assert_eq!(endings(&ended), ["can be built", "cannot be built", "can be built"]);
}

/// The book W of docs/STEPS.md, whose run is worked out there, and with a wanted option.
#[test]
fn each_order_has_its_own_derived_rules_and_records() {
    let book = "options: a b\na | b\nb | !a\na | !b\n!a | !b\n";
    let orders = [("w_empty.order", "# nothing\n"), ("w_again.order", "")];
    let ended = morning(book, &orders, &["--places", "3", "--allowance", "3"]);
    let outcome = "cannot be built: no choice of options keeps every rule and wish\n\
                   branchings 3, derived rules 3, records 1\n\
                   derived rule: a\nderived rule: !a\nderived rule: false\n\
                   record: fitted (none); left out (none); struck a b\n";
    let due = orders.map(|(name, text)| format!("order: {}\n{outcome}", file(name, text))).concat();
    assert_eq!((ended.text(), ended.status), (due.as_str(), 1));
}

#[test]
fn standard_options_and_wishes_of_the_book_hold_for_every_order() {
    let book = "options: a b c\n!a | !b\nstandard: a\nwithout: c\n";
    let orders = [
        ("every_b.order", "want: b\n"),
        ("every_not_a.order", "want: b\nwithout: a\n"),
        ("every_standard.order", "standard: b\n"),
        ("every_none.order", ""),
    ];
    let ended = morning(book, &orders, &[]);
    let due = ["cannot be built", "can be built", "cannot be built", "can be built"];
    assert_eq!((endings(&ended), ended.status), (due.to_vec(), 1));
    let ended = morning(book, &[("every_twice.order", "without: c\n")], &[]);
    let said = format!(
        "optbook: {}: line 1: `c` stands twice in the order: expected it once\n",
        file("every_twice.order", "without: c\n")
    );
    assert_eq!((ended.said, ended.status), (said, 65));
}

/// The rule !a is kept without a branching; with a wanted one branching and one derived rule are due.
#[test]
fn the_status_is_the_highest_of_the_orders() {
    let of = |places: &str, allowance: &str, names: [&str; 2]| {
        let orders = [(names[0], "want: a\n"), (names[1], "")];
        morning("options: a\n!a\n", &orders, &["--places", places, "--allowance", allowance])
    };
    let ended = of("1", "1", ["high_cannot.order", "high_can.order"]);
    assert_eq!((endings(&ended), ended.status), (vec!["cannot be built", "can be built"], 1));
    let ended = of("1", "0", ["high_ten.order", "high_without_ten.order"]);
    let ten = "stopped without a verdict, number 10";
    assert_eq!((endings(&ended), ended.status), (vec![ten, "can be built"], 3));
    let ended = of("0", "1", ["high_eleven.order", "high_without_eleven.order"]);
    let eleven = "stopped without a verdict, number 11";
    assert_eq!((endings(&ended), ended.status), (vec![eleven, "can be built"], 3));
    let ended = of("2049", "1", ["high_nine.order", "high_nine_again.order"]);
    assert_eq!((endings(&ended), ended.status), (vec!["refused, number 9"; 2], 2));
    assert_eq!(of("2048", "1", ["high_most.order", "high_most_again.order"]).status, 1);
}

#[test]
fn the_number_of_orders_is_judged_by_the_library() {
    let refused = "refused, number 13: the number of orders is not 1 to 16\n\
                   branchings 0, derived rules 0, records 0\n";
    for orders in [0, 17, 20] {
        let words = [&["morning", PLANT][..], &vec![CAN; orders]].concat();
        let ended = optbook(&words, b"");
        assert_eq!((ended.text(), ended.status), (refused, 2), "{orders} orders");
    }
    for orders in [1, 16] {
        let words = [&["morning", PLANT][..], &vec![CAN; orders]].concat();
        let ended = optbook(&words, b"");
        assert_eq!((endings(&ended), ended.status), (vec!["can be built"; orders], 0));
    }
}
