//! The watcher of the run at hand, which the engine tells. Each function panics at a difference.

pub use crate::change::Change;
use crate::change::Seen;
use crate::watch::Watch;
use port::Decisions;
use std::cell::{Cell, RefCell};

thread_local! {
    static WATCH: RefCell<Watch> = RefCell::default();
    /// How many changes are under way, each within the one before.
    static UNDER_WAY: Cell<usize> = const { Cell::new(0) };
}

/// A run over these options begins, of which nothing was told yet.
pub fn begin(options: u64) {
    WATCH.set(Watch::of(options));
    UNDER_WAY.set(0);
}

/// A change is begun. What is changed within it is told with it.
pub fn before() {
    UNDER_WAY.set(UNDER_WAY.get() + 1);
}

/// The change was made; these are the table, the tallies and the number of rules after it.
pub fn after(change: Change, t: &[u64], q: &[u64], rules: usize) {
    made(change, Some(t), q, rules);
}

/// The change was made, and is not lent the table; these are the tallies and the number of rules after it.
pub fn after_words(change: Change, q: &[u64], rules: usize) {
    made(change, None, q, rules);
}

fn made(change: Change, t: Option<&[u64]>, q: &[u64], rules: usize) {
    UNDER_WAY.set(UNDER_WAY.get() - 1);
    if UNDER_WAY.get() == 0 {
        sure(WATCH.with_borrow_mut(|watch| watch.after(change, t, q, rules)));
    }
}

/// A point at which the engine goes by the tallies of these decisions, this struck set and so many rules.
pub fn point(at: Decisions, struck: u64, rules: usize) {
    sure(WATCH.with_borrow_mut(|watch| watch.at_point(at, struck, rules)));
}

/// The run has ended. Gives what was seen, and on how many second sides it ended.
pub fn end(t: &[u64], q: &[u64], rules: usize, struck: Option<u64>) -> (Seen, u32) {
    let mut watch = WATCH.take();
    let second_sides = sure(watch.at_end(t, q, rules, struck));
    (watch.seen, second_sides)
}

fn sure<T>(told: Result<T, String>) -> T {
    told.unwrap_or_else(|difference| panic!("{difference}"))
}
