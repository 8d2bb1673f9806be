//! Small books whose runs need few branchings and few places.

/// A book and an order with a name, and the first line of the outcome of ample allowances. A rule is
/// its fitted word and its left-out word, the order its wanted, its unwanted and its standard word.
pub struct Small {
    pub name: &'static str,
    pub options: usize,
    pub rules: &'static [(u64, u64)],
    pub order: (u64, u64, u64),
    pub ample: &'static str,
}

/// No options, the empty rule, one option, rules that contradict each other; the marked Q and W;
/// all rules of three and of four options; four mixed books; books with a resolved rule that one
/// rule covers, that two rules cover, and that a derived rule covers. Then orders with standard
/// options: one of them is unwanted; only because of one of them Q cannot be built; they stand
/// between the wanted ones in the order's run; all 64 are standard.
pub const SMALL: [Small; 26] = [
    small("no options", 0, &[], (0, 0, 0), "can 0 0 0 0"),
    small("the empty rule of no options", 0, &[(0, 0)], (0, 0, 0), "cannot 0 0 0 0"),
    small("the empty rule and an order", 3, &[(0, 0)], (1, 4, 0), "cannot 0 0 0 1"),
    small("1", 1, &[(1, 0)], (0, 0, 0), "can 0 0 0 1"),
    small("1, unwanted 1", 1, &[(1, 0)], (0, 1, 0), "cannot 0 1 1 1"),
    small("1; not 1", 1, &[(1, 0), (0, 1)], (0, 0, 0), "cannot 0 1 1 1"),
    small("1; not 1; 2; not 2", 2, &[(1, 0), (0, 1), (2, 0), (0, 2)], (0, 0, 0), "cannot 0 2 1 1"),
    small("64 options, no rules", 64, &[], (0, 0, 0), "can 0 0 0 64"),
    small("Q", 3, Q, (0, 0, 0), "can 0 1 0 2"),
    small("Q, wanted 1", 3, Q, (1, 0, 0), "can 0 1 0 2"),
    small("Q, wanted 6", 3, Q, (6, 0, 0), "cannot 0 2 2 1"),
    small("W", 2, W, (0, 0, 0), "cannot 0 3 3 1"),
    small("W, wanted 1, unwanted 2", 2, W, (1, 2, 0), "cannot 0 2 2 1"),
    small("all rules of 3 options", 3, ALL_OF_THREE, (0, 0, 0), "cannot 0 7 7 1"),
    small("all rules of 4 options", 4, ALL_OF_FOUR, (0, 0, 0), "cannot 0 15 15 1"),
    small("all rules of 3 options but one", 3, ALL_BUT_ONE, (0, 0, 0), "can 0 6 4 1"),
    small("13 rules of 4 options", 4, THIRTEEN_RULES, (0, 0, 0), "cannot 0 6 4 1"),
    small("9 rules of 3 options, wanted 4", 3, NINE_RULES, (4, 0, 0), "can 0 3 1 1"),
    small("20 rules of 5 options, wanted 16", 5, TWENTY_RULES, (16, 0, 0), "can 0 5 2 2"),
    small("covered once", 3, COVERED_ONCE, (0, 0, 0), "cannot 0 3 1 1"),
    small("covered twice", 3, COVERED_TWICE, (0, 0, 0), "cannot 0 3 1 1"),
    small("covered by a derived rule", 4, COVERED_LATER, (0, 0, 0), "can 0 4 1 2"),
    small("Q, unwanted 2, standard 6", 3, Q, (0, 2, 6), "can 0 1 0 2"),
    small("Q, wanted 2, standard 4", 3, Q, (2, 0, 4), "cannot 0 2 2 1"),
    small("not all of 4 options, wanted 10, standard 5", 4, NOT_ALL, (10, 0, 5), "cannot 0 4 4 1"),
    small("64 options, no rules, all standard", 64, &[], (0, 0, u64::MAX), "can 0 0 0 64"),
];

const fn small(
    name: &'static str,
    options: usize,
    rules: &'static [(u64, u64)],
    order: (u64, u64, u64),
    ample: &'static str,
) -> Small {
    Small { name, options, rules, order, ample }
}

const Q: &[(u64, u64)] = &[(3, 0), (4, 1), (0, 6)];

const W: &[(u64, u64)] = &[(3, 0), (2, 1), (1, 2), (0, 3)];

const ALL_OF_THREE: &[(u64, u64)] =
    &[(3, 4), (1, 6), (7, 0), (6, 1), (2, 5), (4, 3), (5, 2), (0, 7)];

#[rustfmt::skip]
const ALL_OF_FOUR: &[(u64, u64)] = &[
    (8, 7), (2, 13), (13, 2), (1, 14), (7, 8), (12, 3), (3, 12), (11, 4), (9, 6), (14, 1), (4, 11),
    (6, 9), (10, 5), (15, 0), (0, 15), (5, 10),
];

const ALL_BUT_ONE: &[(u64, u64)] = &[(6, 1), (2, 5), (1, 6), (3, 4), (0, 7), (5, 2), (7, 0)];

#[rustfmt::skip]
const THIRTEEN_RULES: &[(u64, u64)] = &[
    (1, 4), (2, 8), (0, 3), (4, 2), (2, 1), (0, 12), (12, 0), (4, 8), (0, 3), (0, 9), (2, 1), (0, 3),
    (6, 0),
];

const NINE_RULES: &[(u64, u64)] =
    &[(0, 7), (0, 7), (5, 2), (3, 4), (4, 3), (4, 0), (1, 6), (1, 6), (5, 2)];

#[rustfmt::skip]
const TWENTY_RULES: &[(u64, u64)] = &[
    (9, 2), (0, 7), (25, 0), (0, 13), (16, 5), (16, 6), (14, 0), (2, 0), (2, 24), (24, 4), (9, 16),
    (3, 4), (7, 0), (20, 2), (5, 8), (1, 20), (1, 12), (16, 10), (14, 0), (10, 1),
];

const COVERED_ONCE: &[(u64, u64)] = &[(2, 0), (4, 3), (0, 4), (4, 0), (1, 0)];

const COVERED_TWICE: &[(u64, u64)] = &[(7, 0), (0, 1), (1, 0), (0, 2), (0, 4), (2, 0)];

const COVERED_LATER: &[(u64, u64)] = &[(8, 0), (5, 8), (1, 4), (3, 0), (1, 2), (0, 3)];

const NOT_ALL: &[(u64, u64)] = &[(0, 15)];
