//! The marked cases, the refusals of an order or of the lent tables, the two stops, and standard
//! options.

use port::{check, run_program, Places, Request};

/// The wanted, the unwanted and the standard word.
type Order = (u64, u64, u64);

const NONE: Order = (0, 0, 0);
const Q: &[(u64, u64)] = &[(3, 0), (4, 1), (0, 6)];
const W: &[(u64, u64)] = &[(3, 0), (2, 1), (1, 2), (0, 3)];

fn bytes(n: u8, rules: &[(u64, u64)]) -> Vec<u8> {
    let mut out = vec![n, rules.len() as u8, 0];
    rules.iter().for_each(|rule| out.extend(rule.0.to_le_bytes()));
    rules.iter().for_each(|rule| out.extend(rule.1.to_le_bytes()));
    out
}

fn printed(n: u8, rules: &[(u64, u64)], order: Order, places: Places, allowance: u32) -> String {
    let book = &bytes(n, rules);
    let (wanted, unwanted, standard) = order;
    let order = port::Order { wanted, unwanted, standard };
    check(&Request { book, order, places, allowance }).to_string()
}

fn ample(n: u8, rules: &[(u64, u64)], order: Order) -> String {
    printed(n, rules, order, Places::equal(2048, 64), 1_000_000)
}

#[test]
fn the_printed_example() {
    let lines = "cannot 0 3 3 1\nd 1 0\nd 0 1\nd 0 0\nr 0 0 3\n";
    assert_eq!(ample(2, W, NONE), lines);
}

#[test]
fn books_without_options() {
    assert_eq!(ample(0, &[], NONE), "can 0 0 0 0\n");
    assert_eq!(ample(0, &[(0, 0)], NONE), "cannot 0 0 0 0\n");
}

#[test]
fn books_of_one_option_rules() {
    assert_eq!(ample(1, &[(1, 0)], NONE), "can 0 0 0 1\nr 0 0 1\n");
    assert_eq!(ample(1, &[(1, 0), (0, 1)], NONE), "cannot 0 1 1 1\nd 0 0\nr 0 0 1\n");
    let both = [(1, 0), (0, 1), (2, 0), (0, 2)];
    assert_eq!(ample(2, &both, NONE), "cannot 0 2 1 1\nd 0 0\nr 0 0 3\n");
}

#[test]
fn the_book_q() {
    assert_eq!(ample(3, Q, NONE), "can 0 1 0 2\nr 1 0 4\nr 1 0 6\n");
    assert_eq!(ample(3, Q, (1, 0, 0)), "can 0 1 0 2\nr 1 1 2\nr 1 1 6\n");
    assert_eq!(ample(3, Q, (6, 0, 0)), "cannot 0 2 2 1\nd 0 2\nd 0 0\nr 0 0 7\n");
}

#[test]
fn a_stop_comes_where_the_steps_reach_it() {
    let ten = printed(2, W, NONE, Places::equal(3, 64), 2);
    assert_eq!(ten.lines().next(), Some("stopped 10 2 1 0"));
    let eleven = printed(2, W, NONE, Places::equal(0, 64), 3);
    assert_eq!(eleven, "stopped 11 2 0 0\n");
    let pair = [(1, 0), (0, 1)];
    assert_eq!(printed(1, &pair, NONE, Places::equal(1, 64), 0), "stopped 10 0 0 0\n");
    assert_eq!(printed(1, &pair, NONE, Places::equal(0, 64), 1), "stopped 11 1 0 0\n");
}

#[test]
fn exact_allowances_are_enough() {
    assert_eq!(printed(2, W, NONE, Places::equal(3, 64), 3), ample(2, W, NONE));
}

#[test]
fn an_order_is_refused_above_n_and_then_for_contradiction() {
    assert_eq!(ample(1, &[], (2, 0, 0)), "refused 7 0 0 0\n");
    assert_eq!(ample(1, &[], (3, 1, 0)), "refused 7 0 0 0\n");
    assert_eq!(ample(1, &[], (1, 1, 0)), "refused 8 0 0 0\n");
}

#[test]
fn lent_tables_are_refused_last() {
    let refused = "refused 9 0 0 0\n";
    let unequal = Places { derived: [3, 4], records: [64; 3] };
    assert_eq!(printed(1, &[], NONE, unequal, 1), refused);
    assert_eq!(printed(1, &[], NONE, Places::equal(2049, 64), 1), refused);
    let short = Places { derived: [0, 0], records: [64, 64, 63] };
    assert_eq!(printed(1, &[], NONE, short, 1), refused);
    assert_eq!(printed(1, &[], (1, 1, 0), short, 1), "refused 8 0 0 0\n");
    assert_eq!(printed(1, &[], NONE, Places::equal(0, 64), 0), "can 0 0 0 1\nr 0 0 1\n");
}

#[test]
fn a_standard_option_is_taken_as_wanted() {
    let wanted = "cannot 0 2 2 1\nd 0 2\nd 0 0\nr 0 0 7\n";
    assert_eq!(ample(3, Q, (6, 0, 0)), wanted);
    assert_eq!(ample(3, Q, (2, 0, 4)), wanted);
    assert_eq!(ample(3, Q, (4, 0, 2)), wanted);
    assert_eq!(ample(3, Q, (0, 0, 6)), wanted);
    assert_eq!(ample(3, Q, (0, 0, 1)), "can 0 1 0 2\nr 1 1 2\nr 1 1 6\n");
}

#[test]
fn a_standard_option_may_be_wanted_too() {
    assert_eq!(ample(3, Q, (6, 0, 6)), ample(3, Q, (6, 0, 0)));
    assert_eq!(ample(3, Q, (6, 0, 2)), ample(3, Q, (6, 0, 0)));
}

#[test]
fn a_standard_option_that_is_unwanted_stays_unwanted() {
    assert_eq!(ample(1, &[(0, 1)], (0, 1, 1)), "can 0 0 0 1\nr 0 0 1\n");
    assert_eq!(ample(1, &[(1, 0)], (0, 1, 1)), "cannot 0 1 1 1\nd 0 0\nr 0 0 1\n");
    assert_eq!(ample(3, Q, (0, 2, 6)), ample(3, Q, (4, 2, 0)));
}

/// The first option that is branched over is that of the lowest of the order's rules, and the first
/// derived rule names it.
#[test]
fn standard_options_join_the_wanted_ones_lowest_first_and_before_the_unwanted_ones() {
    let not_both = &[(0, 3)];
    let over_one = "cannot 0 2 2 1\nd 0 1\nd 0 0\nr 0 0 3\n";
    assert_eq!(ample(2, not_both, (3, 0, 0)), over_one);
    assert_eq!(ample(2, not_both, (2, 0, 1)), over_one);
    assert_eq!(ample(2, not_both, (1, 0, 2)), over_one);
    let two_needs_one = &[(1, 2)];
    let over_two = "cannot 0 2 2 1\nd 0 2\nd 0 0\nr 0 0 3\n";
    assert_eq!(ample(2, two_needs_one, (2, 1, 0)), over_two);
    assert_eq!(ample(2, two_needs_one, (0, 1, 2)), over_two);
}

#[test]
fn a_standard_option_above_n_is_refused_after_eight_and_before_nine() {
    let twelve = "refused 12 0 0 0\n";
    assert_eq!(ample(1, &[], (0, 0, 2)), twelve);
    assert_eq!(ample(1, &[], (0, 1, 3)), twelve);
    assert_eq!(ample(63, &[], (0, 0, 1 << 63)), twelve);
    assert_eq!(printed(1, &[], (0, 0, 2), Places::equal(2049, 64), 1), twelve);
    assert_eq!(ample(1, &[], (2, 0, 2)), "refused 7 0 0 0\n");
    assert_eq!(ample(1, &[], (0, 2, 2)), "refused 7 0 0 0\n");
    assert_eq!(ample(1, &[], (1, 1, 2)), "refused 8 0 0 0\n");
    assert_eq!(ample(1, &[(1, 1)], (0, 0, 2)), "refused 6 0 0 0\n");
    assert!(ample(64, &[], (0, 0, 1 << 63)).starts_with("can 0 0 0 64\n"));
}

#[test]
fn the_program_reads_three_words_and_then_the_book() {
    let of = |input: &[u8]| run_program(input).to_string();
    for length in [0, 16, 23, 24, 26] {
        assert_eq!(of(&vec![0; length]), "refused 1 0 0 0\n", "{length} bytes");
    }
    assert_eq!(of(&[0; 27]), "can 0 0 0 0\n");
    let mut input = vec![0; 24];
    (input[0], input[8], input[16]) = (2, 4, 5);
    input.extend(bytes(3, Q));
    assert_eq!(of(&input), ample(3, Q, (2, 4, 5)));
    assert_eq!(of(&input), ample(3, Q, (3, 4, 0)));
}
