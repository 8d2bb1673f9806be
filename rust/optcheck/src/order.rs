//! An order, and what completes it.

/// The wanted, the unwanted and the standard options, as sets: option k stands at bit k - 1. A
/// standard option comes unless it is unwanted.
#[derive(Clone, Copy, Debug, Default, PartialEq, Eq)]
pub struct Order {
    pub wanted: u64,
    pub unwanted: u64,
    pub standard: u64,
}

impl Order {
    /// The order that a check is about: each standard option that is not unwanted is wanted, and
    /// no standard ones are left. An option that is in neither of its two sets is free.
    pub fn completed(self) -> Order {
        let Order { wanted, unwanted, standard } = self;
        Order { wanted: wanted | (standard & !unwanted), unwanted, standard: 0 }
    }

    /// The order with a setting of its open options: those in the setting are wanted, the other open
    /// ones unwanted, and none of them is standard.
    pub fn with_setting(self, open: u64, setting: u64) -> Order {
        let Order { wanted, unwanted, standard } = self;
        Order {
            wanted: wanted | setting,
            unwanted: unwanted | (open & !setting),
            standard: standard & !open,
        }
    }

    /// The three sets, in the sequence in which the library takes them.
    pub fn words(self) -> [u64; 3] {
        [self.wanted, self.unwanted, self.standard]
    }
}

#[cfg(test)]
mod tests {
    use super::*;

    fn completed(wanted: u64, unwanted: u64, standard: u64) -> (u64, u64, u64) {
        let Order { wanted, unwanted, standard } = Order { wanted, unwanted, standard }.completed();
        (wanted, unwanted, standard)
    }

    #[test]
    fn a_standard_option_is_wanted_unless_it_is_unwanted() {
        assert_eq!(completed(0b0001, 0b0010, 0b1110), (0b1101, 0b0010, 0));
        assert_eq!(completed(0, 0, 1 << 63), (1 << 63, 0, 0));
        assert_eq!(completed(0, u64::MAX, u64::MAX), (0, u64::MAX, 0));
    }

    #[test]
    fn an_open_option_is_wanted_or_unwanted_and_not_standard() {
        let order = Order { wanted: 0b00001, unwanted: 0b00010, standard: 0b10111 };
        assert_eq!(order.with_setting(0b01100, 0b00100).words(), [0b00101, 0b01010, 0b10011]);
        assert_eq!(order.with_setting(0b01100, 0).words(), [0b00001, 0b01110, 0b10011]);
        assert_eq!(order.with_setting(0, 0), order);
    }

    #[test]
    fn the_words_are_wanted_unwanted_and_standard() {
        assert_eq!(Order { wanted: 1, unwanted: 2, standard: 4 }.words(), [1, 2, 4]);
    }

    #[test]
    fn wanted_options_stay_wanted_and_nothing_standard_changes_nothing() {
        assert_eq!(completed(0b11, 0b100, 0b01), (0b11, 0b100, 0));
        assert_eq!(completed(0b01, 0b10, 0), (0b01, 0b10, 0));
    }
}
