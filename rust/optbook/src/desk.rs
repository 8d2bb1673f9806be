//! The library's desk: an order, and drafts of it to come back to. All that changes on it goes through the
//! library's calls.

use crate::engine::Unlinked;
#[cfg(feature = "proved")]
pub use optcheck::Desk;
#[cfg(not(feature = "proved"))]
pub use unlinked::Desk;

/// A fresh desk for so many options, or the number of the refusal.
#[cfg(feature = "proved")]
pub fn fresh(options: usize) -> Result<Result<Desk, u32>, Unlinked> {
    Ok(Desk::fresh(u32::try_from(options).unwrap_or(u32::MAX)))
}

/// Without the library there is no desk.
#[cfg(not(feature = "proved"))]
pub fn fresh(_: usize) -> Result<Result<Desk, u32>, Unlinked> {
    Err(Unlinked)
}

#[cfg(not(feature = "proved"))]
mod unlinked {
    use crate::Order;
    use std::convert::Infallible;

    /// The desk of a tool without the library, of which there is none.
    #[derive(Clone, Debug)]
    pub struct Desk(Infallible);

    impl Desk {
        pub fn set(&mut self, _: u32, _: bool) -> Result<(), u32> {
            match self.0 {}
        }

        pub fn clear(&mut self, _: u32) -> Result<(), u32> {
            match self.0 {}
        }

        pub fn keep(&mut self, _: u32) -> Result<(), u32> {
            match self.0 {}
        }

        pub fn return_to(&mut self, _: u32) -> Result<(), u32> {
            match self.0 {}
        }

        pub fn order(&self) -> Order {
            match self.0 {}
        }

        pub fn drafts(&self) -> Vec<(u32, Order)> {
            match self.0 {}
        }
    }
}
