//! The shapes of generated books: tiny, like an option book, random with three entries a rule, and
//! all rules over some options. Each is made from a seed's numbers alone.

use crate::random::Random;
pub use optbook::worst::all_rules;
use optbook::{first, option, Book, Order, Rule, RULES};

/// Rules an option at which random books with three entries a rule are hardest.
const HARDEST_RATIO: f64 = 4.26;

/// A book of up to 5 options and 12 rules; each entry is fitted, left out or absent, and the empty
/// rule is rare.
pub fn tiny(random: &mut Random) -> Book {
    let options = random.below(6);
    let mut rules = Vec::new();
    for _ in 0..random.below(13) {
        let rule = sparse_rule(random, options);
        if rule != Rule::default() || random.chance(1, 16) {
            rules.push(rule);
        }
    }
    Book { options, rules }
}

fn sparse_rule(random: &mut Random, options: usize) -> Rule {
    let mut rule = Rule::default();
    for index in 0..options {
        match random.below(4) {
            0 => rule.fitted |= option(index),
            1 => rule.left_out |= option(index),
            _ => (),
        }
    }
    rule
}

/// A book as a plant's would be: groups of alternatives, options that need others, and options
/// that exclude each other. 64 options make some 150 to 250 rules.
pub fn option_book(random: &mut Random, options: usize) -> Book {
    let mut rules = Vec::new();
    let mut start = 0;
    while start < options {
        let size = random.between(2, 5).min(options - start);
        add_group(random, &mut rules, start, size);
        start += size;
    }
    for _ in 0..options {
        rules.push(need(random, options));
    }
    for _ in 0..options / 2 {
        rules.push(exclusion(random, options));
    }
    Book { options, rules }
}

/// A group of alternatives: mostly one of them at least, and mostly no two of them.
fn add_group(random: &mut Random, rules: &mut Vec<Rule>, start: usize, size: usize) {
    if random.chance(3, 4) {
        let group = first(start + size) & !first(start);
        rules.push(Rule { fitted: group, left_out: 0 });
    }
    if random.chance(3, 4) {
        for i in start..start + size {
            for j in i + 1..start + size {
                rules.push(Rule { fitted: 0, left_out: option(i) | option(j) });
            }
        }
    }
}

/// One option, or two together, need one of one to three others.
fn need(random: &mut Random, options: usize) -> Rule {
    let needing = random.between(1, 2);
    let needed = random.between(1, 3);
    let chosen = distinct(random, options, needing + needed);
    let needing = needing.min(chosen.len());
    Rule { fitted: union(&chosen[needing..]), left_out: union(&chosen[..needing]) }
}

/// Two options are not fitted together.
fn exclusion(random: &mut Random, options: usize) -> Rule {
    Rule { fitted: 0, left_out: union(&distinct(random, options, 2)) }
}

/// Random rules of three entries, near the hardest ratio of rules to options.
pub fn three_entries(random: &mut Random, options: usize) -> Book {
    let rules = (HARDEST_RATIO * options as f64).round() as usize;
    three_entry_rules(random, options, rules)
}

/// So many random rules of three entries.
pub fn three_entry_rules(random: &mut Random, options: usize, rules: usize) -> Book {
    let rules = (0..rules).map(|_| three_entry_rule(random, options)).collect();
    Book { options, rules }
}

fn three_entry_rule(random: &mut Random, options: usize) -> Rule {
    let mut rule = Rule::default();
    for index in distinct(random, options, 3) {
        match random.chance(1, 2) {
            true => rule.fitted |= option(index),
            false => rule.left_out |= option(index),
        }
    }
    rule
}

/// The largest book: 64 options and 1,024 rules.
pub fn largest(random: &mut Random) -> Book {
    sized(random, 64, RULES)
}

/// A book of so many options and rules. It is like an option book, with rules of three to six entries
/// after that.
pub fn sized(random: &mut Random, options: usize, rules: usize) -> Book {
    let mut book = option_book(random, options);
    book.rules.truncate(rules);
    while book.rules.len() < rules {
        let entries = random.between(3, 6);
        let mut rule = Rule::default();
        for index in distinct(random, options, entries) {
            match random.chance(1, 2) {
                true => rule.fitted |= option(index),
                false => rule.left_out |= option(index),
            }
        }
        book.rules.push(rule);
    }
    book
}

/// An order in which each option is wanted, or unwanted, in one of so many cases.
pub fn order(random: &mut Random, options: usize, one_of: usize) -> Order {
    let mut order = Order::default();
    for index in 0..options {
        match random.below(2 * one_of) {
            0 => order.wanted |= option(index),
            1 => order.unwanted |= option(index),
            _ => (),
        }
    }
    order
}

/// So many different options by index, or all where there are fewer.
pub fn distinct(random: &mut Random, options: usize, count: usize) -> Vec<usize> {
    let mut chosen: Vec<usize> = Vec::new();
    while chosen.len() < count.min(options) {
        let index = random.below(options);
        if !chosen.contains(&index) {
            chosen.push(index);
        }
    }
    chosen
}

/// The options with these indices, as a set.
pub fn union(indices: &[usize]) -> u64 {
    indices.iter().fold(0, |set, &index| set | option(index))
}

#[cfg(test)]
mod tests {
    use super::*;

    fn is_whole(book: &Book) -> bool {
        let all = first(book.options);
        book.rules.len() <= RULES
            && book.rules.iter().all(|r| r.fitted & r.left_out == 0)
            && book.rules.iter().all(|r| (r.fitted | r.left_out) & !all == 0)
    }

    #[test]
    fn every_shape_makes_whole_books() {
        let mut random = Random::new(1);
        for _ in 0..200 {
            assert!(is_whole(&tiny(&mut random)));
            let options = random.between(1, 64);
            assert!(is_whole(&option_book(&mut random, options)));
            assert!(is_whole(&three_entries(&mut random, options.max(3))));
        }
        assert!((1..=10).all(|options| is_whole(&all_rules(options))));
        assert!(is_whole(&largest(&mut random)));
    }

    #[test]
    fn sizes_are_as_promised() {
        let mut random = Random::new(2);
        for _ in 0..50 {
            let rules = option_book(&mut random, 64).rules.len();
            assert!((120..=280).contains(&rules), "{rules} rules");
        }
        assert_eq!(three_entries(&mut random, 20).rules.len(), 85);
        assert!(three_entries(&mut random, 20)
            .rules
            .iter()
            .all(|r| (r.fitted | r.left_out).count_ones() == 3));
        let largest = largest(&mut random);
        assert_eq!((largest.options, largest.rules.len()), (64, 1024));
        let sized = sized(&mut random, 30, 12);
        assert_eq!((sized.options, sized.rules.len()), (30, 12));
    }
}
