//! Option books and orders in readable form, over the proved checker.
//!
//! `sheet` reads the readable form with the line of each `mistake`, and `text` writes it; `bytes` and
//! `dimacs` are the two other forms of a book. `engine` is the proved check of an order, of several, of
//! one with open options, or of sites that share one allowance, the page of one, what a planner can force in
//! turns with a buyer, and the cheapest plant, `outcome` tells what it found with the options' names, and
//! `explain` looks for the reason of a `cannot`. `desk` is the library's desk, `session` what is done at it,
//! and `command` reads what is asked for there. `join` has the names and the places of two books that the
//! library joined, and `renumber` writes a book and an order anew, with other numbers and with options
//! reversed. `prices` reads what the options cost, `bill` sets out what a plant costs, `side_by_side`
//! two quotes of which one has another price for an option, and `table` has the layout of both. `worst` has
//! the books whose check takes the most.

pub mod bill;
pub mod bytes;
pub mod command;
pub mod desk;
pub mod dimacs;
pub mod engine;
pub mod explain;
pub mod join;
#[cfg(any(test, feature = "proved"))]
mod lent;
pub mod mistake;
pub mod outcome;
pub mod prices;
pub mod renumber;
pub mod session;
pub mod sheet;
pub mod side_by_side;
pub mod table;
pub mod text;
pub mod worst;

pub use optcheck::Order;

/// A book has at most this many options.
pub const OPTIONS: usize = 64;
/// A book has at most this many rules.
pub const RULES: usize = 1024;

/// A rule: the options that keep it when fitted, and those that keep it when left out. Option k
/// stands at bit k - 1.
#[derive(Clone, Copy, Debug, Default, PartialEq, Eq)]
pub struct Rule {
    pub fitted: u64,
    pub left_out: u64,
}

/// A number of options, and rules over them.
#[derive(Clone, Debug, Default, PartialEq, Eq)]
pub struct Book {
    pub options: usize,
    pub rules: Vec<Rule>,
}

/// The option with this index, counted from 0, as a set.
pub fn option(index: usize) -> u64 {
    1 << index
}

/// The number of an option that is given as a set.
pub fn number(option: u64) -> u32 {
    option.trailing_zeros() + 1
}

/// The first options, up to 64 of them, as a set.
pub fn first(count: usize) -> u64 {
    if count >= OPTIONS {
        u64::MAX
    } else {
        option(count) - 1
    }
}

/// The free options of an order on so many options: in the completed order they are neither wanted nor
/// unwanted.
pub fn free(order: Order, options: usize) -> u64 {
    let Order { wanted, unwanted, .. } = order.completed();
    first(options) & !(wanted | unwanted)
}

impl Rule {
    /// A choice of fitted options keeps the rule.
    pub fn is_kept_by(self, choice: u64) -> bool {
        self.fitted & choice != 0 || self.left_out & !choice != 0
    }
}
