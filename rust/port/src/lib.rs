//! The option book checker's steps (docs/STEPS.md), written the direct way: vectors, loops and
//! 64-bit words. It shares no text with the proved checker, so that the two can be compared.
//!
//! `check` takes a book's bytes, an order, the lent places and an allowance, and gives the outcome.
//! `morning` takes several orders of one book, and gives the outcome of each. `undecided` takes an order
//! with open options, and tries every setting of them. `sites` takes several orders of one book that
//! share one allowance. `page` makes the page of an outcome. `Desk` is an order with drafts to come back to,
//! as the list of its calls, and `DeskWords` what a call does to a desk of any words. `join` makes one book of
//! two. `turns` says whether the planner can force a plant where the buyer and he settle the free options.
//! `cheapest` finds the cheapest plant by trying all choices, and `cheapest_by_branches` the same one sooner.
//! `Renumbering` is how another office numbers the options and which of them it reverses, in rules, completed
//! orders and choices.
//! `run_program` does what the program does with its standard input.

mod book;
mod cheapest;
mod cheapest_by_branches;
mod desk;
mod desk_words;
mod join;
mod morning;
mod outcome;
mod page;
mod program;
mod renumber;
mod request;
mod sites;
mod steps;
mod turns;
mod undecided;
mod words;

pub use cheapest::{cheapest, Quote};
pub use cheapest_by_branches::cheapest_by_branches;
pub use desk::{Call, Desk, Standing};
pub use desk_words::DeskWords;
pub use join::join;
pub use morning::{morning, Morning};
pub use outcome::{Ending, Outcome, CAN, CANNOT};
pub use page::page;
pub use program::{run_program, PROGRAM_ALLOWANCE, PROGRAM_PLACES, PROGRAM_RECORD_PLACES};
pub use renumber::Renumbering;
pub use request::{check, Order, Places, Request};
pub use sites::{sites, Served, Site, Sites};
pub use turns::{turns, Response, Turns};
pub use undecided::{undecided, Tables, Tried, Undecided, Verdict};
pub use words::{Decisions, Record, Rule};
