//! Generated orders that leave so many options free, too many of them, or are refused, and rules over the free
//! ones.

use crate::orders::{above, contradictory, some_order, standard_above};
use crate::random::Random;
use crate::shapes::{self, distinct, union};
use optbook::{first, option, Book, Order, Rule, OPTIONS};

/// An order in which just so many of these options are free, which stand apart or come last. Each other one is
/// wanted, unwanted or standard, and sometimes standard beside that.
pub fn order(random: &mut Random, options: usize, free: usize) -> Order {
    let free = match random.chance(1, 4) {
        true => first(options) & !first(options - free),
        false => union(&distinct(random, options, free)),
    };
    let mut order = Order::default();
    for option in (0..options).map(option).filter(|option| free & option == 0) {
        match random.below(5) {
            0 | 1 => order.wanted |= option,
            2 | 3 => order.unwanted |= option,
            _ => order.standard |= option,
        }
        if random.chance(1, 6) {
            order.standard |= option;
        }
    }
    order
}

/// The free options of a book with an order, and the others, each as a set.
pub fn free_and_others(book: &Book, order: Order) -> [Vec<u64>; 2] {
    let Order { wanted, unwanted, .. } = order.completed();
    let is_free = |option: &u64| (wanted | unwanted) & option == 0;
    let (free, others) = (0..book.options).map(option).partition(is_free);
    [free, others]
}

/// A rule of one to three free options, or of half of them and more; and often of others, with entries that the
/// order mostly makes false.
pub fn rule(random: &mut Random, book: &Book, order: Order, is_long: bool) -> Rule {
    let [free, others] = free_and_others(book, order);
    let count = match is_long {
        true => random.between(free.len() / 2, free.len()),
        false => random.between(1, 3),
    };
    let mut rule = Rule::default();
    for index in distinct(random, free.len(), count) {
        add(&mut rule, free[index], random.chance(1, 2));
    }
    let count = random.below(3);
    for index in distinct(random, others.len(), count) {
        let keeps = random.chance(1, 8);
        add(&mut rule, others[index], is_wanted(order, others[index]) == keeps);
    }
    rule
}

/// The completed order wants the option.
pub fn is_wanted(order: Order, option: u64) -> bool {
    order.completed().wanted & option != 0
}

/// Adds an entry to a rule.
pub fn add(rule: &mut Rule, option: u64, fitted: bool) {
    match fitted {
        true => rule.fitted |= option,
        false => rule.left_out |= option,
    }
}

/// Puts a rule among those of a book, mostly at an end.
pub fn insert(random: &mut Random, book: &mut Book, rule: Rule) {
    let place = match random.below(3) {
        0 => 0,
        1 => book.rules.len(),
        _ => random.between(0, book.rules.len()),
    };
    book.rules.insert(place, rule);
}

/// Gives a book so many rules: its own come again, between others that the order keeps. Not all of its options
/// are free.
pub fn fill(random: &mut Random, book: &mut Book, order: Order, rules: usize) {
    let [_, others] = free_and_others(book, order);
    let own = book.rules.len();
    while book.rules.len() < rules {
        let mut next = rule(random, book, order, false);
        match own > 0 && random.chance(1, 2) {
            true => next = book.rules[random.below(own)],
            false => {
                let kept = others[random.below(others.len())];
                next.fitted &= !kept;
                next.left_out &= !kept;
                add(&mut next, kept, is_wanted(order, kept));
            }
        }
        book.rules.push(next);
    }
    random.shuffle(&mut book.rules);
}

/// A book and an order that leaves one option more free than this most or, every second time, more.
pub fn too_many(random: &mut Random, turn: usize, most: usize) -> (Book, Order) {
    let least = most + 1 + turn % 2;
    let options = random.between(least, OPTIONS);
    let free = match turn.is_multiple_of(2) {
        true => least,
        false => random.between(least, options),
    };
    let order = order(random, options, free);
    (shapes::option_book(random, options), order)
}

/// A book and an order with which it is refused by 7, 8 or 12 in turn. In one half of the cases there are also
/// more free options than this most.
pub fn refused_order(random: &mut Random, turn: usize, most: usize) -> (Book, Order) {
    let (options, free) = match (turn / 3).is_multiple_of(2) {
        true => {
            let free = random.between(most + 2, OPTIONS - 1);
            (random.between(free, OPTIONS - 1), free)
        }
        false => {
            let free = random.below(most + 1);
            (random.between(free + 1, OPTIONS - 1), free)
        }
    };
    let good = order(random, options, free);
    let bad = match turn % 3 {
        0 => above(random, good, options),
        1 => contradictory(random, good, options),
        _ => standard_above(random, good, options),
    };
    (shapes::option_book(random, options), bad)
}

/// A book with a rule, an option, and not all options, and an order that may be refused too.
pub fn before_refusal(random: &mut Random) -> (Book, Order) {
    let options = random.between(2, OPTIONS - 1);
    let order = some_order(random, options);
    let order = match random.chance(1, 2) {
        true => contradictory(random, order, options),
        false => order,
    };
    (shapes::option_book(random, options), order)
}

/// A small book of up to this many options with an order, which may be refused, and in which few options are
/// wished.
pub fn plain(random: &mut Random, most: usize) -> (Book, Order) {
    let book = match random.chance(1, 2) {
        true => shapes::tiny(random),
        false => {
            let options = random.between(6, most);
            shapes::option_book(random, options)
        }
    };
    let order = some_order(random, book.options);
    (book, order)
}

#[cfg(test)]
mod tests {
    use super::*;
    use crate::question::Check;
    use optbook::bytes::{book_bytes, input_bytes};
    use port::Ending;

    #[test]
    fn just_so_many_options_are_free_and_a_rule_has_some_of_them() {
        let mut random = Random::new(1);
        for _ in 0..200 {
            let options = random.between(1, 64);
            let free = random.between(1, options);
            let order = order(&mut random, options, free);
            let book = Book { options, rules: Vec::new() };
            let [all, others] = free_and_others(&book, order);
            assert_eq!([all.len(), others.len()], [free, options - free]);
            assert_eq!(order.wanted & order.unwanted, 0);
            let free: u64 = all.iter().sum();
            let named = |rule: Rule| (rule.fitted | rule.left_out) & free;
            let short = named(rule(&mut random, &book, order, false));
            assert!((1..=3).contains(&short.count_ones()));
            let long = named(rule(&mut random, &book, order, true));
            assert!(long.count_ones() as usize >= all.len() / 2);
        }
    }

    #[test]
    fn rules_are_put_at_either_end_and_between() {
        let mut random = Random::new(2);
        let [one, other] = [1, 2].map(|fitted| Rule { fitted, left_out: 0 });
        let mut places = Vec::new();
        for _ in 0..60 {
            let mut book = Book { options: 2, rules: vec![one; 3] };
            insert(&mut random, &mut book, other);
            places.extend(book.rules.iter().position(|rule| *rule == other));
        }
        assert!((0..4).all(|place| places.contains(&place)), "{places:?}");
    }

    #[test]
    fn each_refusal_comes_in_its_turn() {
        let mut random = Random::new(3);
        for turn in 0..60 {
            let (book, order) = too_many(&mut random, turn, 9);
            let free = free_and_others(&book, order)[0].len();
            assert!(free > 9 && (free == 10) == turn.is_multiple_of(2));
            let (book, order) = refused_order(&mut random, turn, 9);
            let input = input_bytes(order, &book_bytes(&book));
            let ending = Check::of_program(input).port_outcome().ending;
            assert_eq!(ending, Ending::Refused([7, 8, 12][turn % 3]));
        }
    }
}
