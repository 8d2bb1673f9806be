//! Generated orders, and what they have beside their wishes: standard options, and faults for which
//! they are refused.

use crate::random::Random;
use crate::shapes;
use optbook::{option, Order, OPTIONS};

/// An order, which is refused in one of four cases where it can be.
pub fn some_order(random: &mut Random, options: usize) -> Order {
    let one_of = random.between(2, 12);
    let wishes = shapes::order(random, options, one_of);
    let order = with_standard(random, wishes, options);
    if !(1..OPTIONS).contains(&options) {
        return order;
    }
    match random.below(12) {
        0 => above(random, order, options),
        1 => contradictory(random, order, options),
        2 => standard_above(random, order, options),
        _ => order,
    }
}

/// The order with standard options, in half of the cases: about half of its wanted and unwanted
/// ones, and each option in one of so many cases.
pub fn with_standard(random: &mut Random, order: Order, options: usize) -> Order {
    if random.chance(1, 2) {
        return order;
    }
    let one_of = random.between(2, 2 + options);
    let mut standard = (order.wanted | order.unwanted) & random.word();
    for index in 0..options {
        if random.chance(1, one_of) {
            standard |= option(index);
        }
    }
    Order { standard, ..order }
}

/// The order with at least one option both wanted and unwanted; sometimes a standard option above n
/// beside it, which counts later.
pub fn contradictory(random: &mut Random, order: Order, options: usize) -> Order {
    let both = option(random.below(options));
    let order = match random.chance(1, 4) {
        true => standard_above(random, order, options),
        false => order,
    };
    Order { wanted: order.wanted | both, unwanted: order.unwanted | both, ..order }
}

/// The order with a standard option above n.
pub fn standard_above(random: &mut Random, order: Order, options: usize) -> Order {
    Order { standard: order.standard | option(random.between(options, 63)), ..order }
}

/// The order with an option above n; sometimes a contradiction or a standard option above n beside
/// it, which count later.
pub fn above(random: &mut Random, order: Order, options: usize) -> Order {
    let far = option(random.between(options, 63));
    let order = match random.below(4) {
        0 => contradictory(random, order, options),
        1 => standard_above(random, order, options),
        _ => order,
    };
    match random.chance(1, 2) {
        true => Order { wanted: order.wanted | far, ..order },
        false => Order { unwanted: order.unwanted | far, ..order },
    }
}
