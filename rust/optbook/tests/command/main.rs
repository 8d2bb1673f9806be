//! The command `optbook`, as it is run: where nothing is checked, and with the proved library.

#[cfg(feature = "proved")]
mod cheapest;
#[cfg(feature = "proved")]
mod desk;
mod forms;
#[cfg(feature = "proved")]
mod join;
#[cfg(feature = "proved")]
mod morning;
#[cfg(feature = "proved")]
mod open;
#[cfg(feature = "proved")]
mod page;
#[cfg(feature = "proved")]
mod proved;
mod renumber;
mod renumbered;
mod run;
#[cfg(feature = "proved")]
mod sites;
#[cfg(feature = "proved")]
mod turns;
#[cfg(feature = "proved")]
mod what_if;
mod worst;
