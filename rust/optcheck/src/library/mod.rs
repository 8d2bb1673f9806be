//! The calls into the static library, each in a file of its own.

mod cheapest;
mod check;
mod desk;
mod join;
mod morning;
mod page;
mod sites;
#[cfg(test)]
mod small;
mod turns;
mod undecided;

pub use cheapest::{cheapest, cheapest_words};
pub use check::{check, check_word};
pub use desk::{desk_clear_words, desk_fresh_words, desk_keep_words, desk_return_words};
pub use desk::{desk_set_words, Desk};
pub use join::{join, join_bytes};
pub use morning::{morning, morning_words};
pub use page::{page, page_bytes};
pub use sites::{site_words, sites, terminal_words, Site, Terminal};
pub use turns::{turns, turns_words};
pub use undecided::{undecided, undecided_words};
