//! What the cheapest plant costs, and which options it has.

/// The highest price of an option, in cents.
pub const PRICE: u64 = 10_000_000;
/// The highest rebate, in thousandths.
pub const REBATE: u64 = 1_000;

/// The least list total of a choice that keeps every rule and wish, the amount due on it, both in cents, and
/// the fitted options of such a choice as a set: option k stands at bit k - 1. Of several choices with this
/// total it is the smallest word.
#[derive(Clone, Copy, Debug, PartialEq, Eq)]
pub struct Quote {
    pub total: u64,
    pub due: u64,
    pub choice: u64,
}

#[cfg(test)]
mod tests {
    use super::*;

    #[test]
    fn the_highest_price_and_rebate_are_the_headers() {
        let header = include_str!("../include/optcheck.h");
        for (name, most) in [("PRICE", PRICE), ("REBATE", REBATE)] {
            assert!(header.contains(&format!("#define OPTCHECK_{name} {most}u ")), "{name}");
        }
    }
}
