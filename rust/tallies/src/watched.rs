//! The functions of the engine that the watcher is told of. The build script uses this file.

/// A function that the watcher is told of: the file it is in, by crate and stem, the parameters that
/// it must have, and what is done before and after its own work.
pub struct Watched {
    pub file: &'static str,
    pub name: &'static str,
    pub takes: &'static [&'static str],
    pub before: &'static str,
    pub after: &'static str,
}

/// The file of the functions that change tallies.
pub const TALLIES: &str = "rows/tallies";

const T: &str = "t: &[u64]";
const Q: &str = "q: &mut [u64]";
const M: &str = "m: usize";
const W: &str = "w: u64";
const B: &str = "b: bool";
const A: &str = "a: Assignment";
const K: &str = "k: u64";
const S: &str = "s: Counts";
const RS: &str = "rs: &mut [u64]";
const T_MUT: &str = "t: &mut [u64]";

/// The struck set is that of the last record.
const AT_THE_LIST: &str =
    "point(a.into(), rows::records::last(rs, s.records).redundant, s.clauses);";

/// The functions that change tallies, through which every change goes; and, with what they go by, those
/// that begin a branching point, sweep, and bring the two sides together. Where `unstrike` calls
/// `restrike` only `unstrike` is told of. What the function answers is `done`.
pub const WATCHED: [Watched; 11] = [
    changing("start", &[T, Q, M], "after(Change::Start, t, q, m);"),
    changing("decide", &[T, Q, M, W, B], "after(Change::Decide(w, b), t, q, m);"),
    changing("turn", &[T, Q, M, W, B], "after(Change::Turn(w, b), t, q, m);"),
    changing("withdraw", &[T, Q, M, W, B], "after(Change::Withdraw(w, b), t, q, m);"),
    changing("strike", &[Q, M, W], "after_words(Change::Strike(w, done), q, m);"),
    changing("restrike", &[Q, M, K], "after_words(Change::Restrike(k), q, m);"),
    changing(
        "unstrike",
        &[Q, M, K, "other: u64"],
        "after_words(Change::Unstrike(k, other), q, m);",
    ),
    changing(
        "add",
        &[T_MUT, Q, M, A, K, "c: Clause"],
        "after(Change::Add(a.into(), k, c.into()), t, q, m + 1);",
    ),
    going_by("enter/lib", "enter", &[T, Q, A, K, S], "point(a.into(), k, s.clauses);"),
    going_by("sweep/lib", "sweep", &[T, Q, RS, A, S], AT_THE_LIST),
    going_by("merge/lib", "test", &[T_MUT, Q, RS, A, S], AT_THE_LIST),
];

const fn changing(
    name: &'static str,
    takes: &'static [&'static str],
    after: &'static str,
) -> Watched {
    Watched { file: TALLIES, name, takes, before: "before();", after }
}

const fn going_by(
    file: &'static str,
    name: &'static str,
    takes: &'static [&'static str],
    before: &'static str,
) -> Watched {
    Watched { file, name, takes, before, after: "" }
}
