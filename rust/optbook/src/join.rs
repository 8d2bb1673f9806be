//! Two books joined into one: which of their options are the same thing, and the names and places of the
//! joint book. The joint book itself is the library's (`engine::join`).

use crate::mistake::{Mistake, Place};
use crate::sheet::{Demand, Sheet};
use crate::text::{demand_text, set_names};
use crate::{first, number, option, Book, Rule};

/// An option of the first book and one of the second that are the same thing, each as a set.
#[derive(Clone, Copy, Debug, PartialEq, Eq)]
pub struct Pair {
    pub first: u64,
    pub second: u64,
}

/// Pairs as the library takes them: two bytes each, the options' numbers.
pub fn pair_bytes(pairs: &[Pair]) -> Vec<u8> {
    pairs.iter().flat_map(|pair| [pair.first, pair.second]).map(|set| number(set) as u8).collect()
}

/// The options that have one name in both books, where neither is in one of these pairs, in the first
/// book's order.
pub fn same_names(first: &Sheet, second: &Sheet, pairs: &[Pair]) -> Vec<Pair> {
    let of_name = |(index, name): (usize, &String)| {
        let other = second.names.iter().position(|known| known == name)?;
        Some(Pair { first: option(index), second: option(other) })
    };
    let is_free = |pair: &Pair| {
        pairs.iter().all(|known| known.first != pair.first && known.second != pair.second)
    };
    first.names.iter().enumerate().filter_map(of_name).filter(is_free).collect()
}

/// The names of the second book's options that are in no pair, though the first book has them too.
pub fn clashing<'a>(first: &Sheet, second: &'a Sheet, pairs: &[Pair]) -> Vec<&'a str> {
    let mut names = set_names(unpaired(second, pairs), &second.names);
    names.retain(|name| first.names.iter().any(|known| known == name));
    names
}

/// The joint book as a sheet: the first book's names and those of the second book's unpaired options, the
/// rules with the places that they come from, and the standard options and wishes of both books. One that
/// both have stands once, with its place in the first; a wish that they have in opposite ways is a mistake.
/// No name may clash.
pub fn joint(first: &Sheet, second: &Sheet, pairs: &[Pair], book: &Book) -> Result<Sheet, Mistake> {
    let unpaired = unpaired(second, pairs);
    let mut names = first.names.clone();
    names.extend(set_names(unpaired, &second.names).into_iter().map(str::to_string));
    assert_eq!(names.len(), book.options, "the joint book has other options than the two");

    let is_rule = |(demand, _): &&(Demand, Place)| matches!(demand, Demand::Rule(_));
    let from = first.demands.iter().chain(&second.demands).filter(is_rule);
    let rule = |(&rule, (_, place)): (&Rule, &(Demand, Place))| (Demand::Rule(rule), place.clone());
    let mut joint = Sheet { names, demands: book.rules.iter().zip(from).map(rule).collect() };

    let in_joint = |set: u64| match pairs.iter().find(|pair| pair.second == set) {
        Some(pair) => pair.first,
        None => option(first.names.len() + (unpaired & (set - 1)).count_ones() as usize),
    };
    add_wishes(&mut joint, first, |set| set)?;
    add_wishes(&mut joint, second, in_joint)?;
    Ok(joint)
}

/// The second book's options that are in no pair.
fn unpaired(second: &Sheet, pairs: &[Pair]) -> u64 {
    let paired = pairs.iter().fold(0, |set, pair| set | pair.second);
    first(second.names.len()) & !paired
}

/// Adds the standard options and the wishes of a book, of which each option is this one in the joint book.
fn add_wishes(
    joint: &mut Sheet,
    book: &Sheet,
    in_joint: impl Fn(u64) -> u64,
) -> Result<(), Mistake> {
    for (demand, place) in &book.demands {
        let (wish, opposite) = match *demand {
            Demand::Rule(_) => continue,
            Demand::Standard(set) => (Demand::Standard(in_joint(set)), None),
            Demand::Want(set) => {
                (Demand::Want(in_joint(set)), Some(Demand::Without(in_joint(set))))
            }
            Demand::Without(set) => {
                (Demand::Without(in_joint(set)), Some(Demand::Want(in_joint(set))))
            }
        };
        let stands = |due| joint.demands.iter().find(|(demand, _)| Some(*demand) == due);
        if let Some((opposite, at)) = stands(opposite) {
            let [wish, other] = [wish, *opposite].map(|wish| demand_text(wish, &joint.names));
            let what = format!("this is `{wish}` in the joint book, and {at} is `{other}`");
            let what = format!("{what}: expected one of them");
            return Err(Mistake { place: place.clone(), what });
        }
        if stands(Some(wish)).is_none() {
            joint.demands.push((wish, place.clone()));
        }
    }
    Ok(())
}

#[cfg(test)]
mod tests {
    use super::*;
    use crate::text::numbered_names;
    use crate::Order;

    fn sheet(file: &str, text: &str) -> Sheet {
        Sheet::of(file, text).unwrap()
    }

    fn pair(first: usize, second: usize) -> Pair {
        Pair { first: option(first - 1), second: option(second - 1) }
    }

    fn rule(fitted: u64, left_out: u64) -> Rule {
        Rule { fitted, left_out }
    }

    #[test]
    fn pairs_are_two_bytes_each() {
        assert_eq!(pair_bytes(&[pair(1, 64), pair(3, 2)]), [1, 64, 3, 2]);
        assert_eq!(pair_bytes(&[]), []);
    }

    #[test]
    fn options_of_one_name_are_paired_where_neither_is_yet() {
        let (first, second) = (sheet("f", "options: a b c d"), sheet("s", "options: d b x a"));
        let of = |pairs: &[Pair]| same_names(&first, &second, pairs);
        assert_eq!(of(&[]), [pair(1, 4), pair(2, 2), pair(4, 1)]);
        assert_eq!(of(&[pair(3, 3)]), of(&[]));
        assert_eq!(of(&[pair(2, 2)]), [pair(1, 4), pair(4, 1)]);
        assert_eq!(of(&[pair(1, 3)]), [pair(2, 2), pair(4, 1)]);
        assert_eq!(of(&[pair(3, 4), pair(2, 1)]), []);
    }

    #[test]
    fn an_unpaired_name_of_both_books_clashes() {
        let (first, second) = (sheet("f", "options: a b c"), sheet("s", "options: c x a"));
        let of = |pairs: &[Pair]| clashing(&first, &second, pairs);
        assert_eq!(of(&[]), ["c", "a"]);
        assert_eq!(of(&[pair(3, 1)]), ["a"]);
        assert_eq!(of(&[pair(1, 2)]), ["c", "a"]);
        assert!(of(&[pair(1, 1), pair(2, 3)]).is_empty());
    }

    /// The joint book is the one that the library is to give of these two.
    #[test]
    fn the_joint_sheet_has_the_names_and_places_of_both() {
        let first = sheet("f", "options: a b\nstandard: b\n\na | !b\nwant: a\n");
        let text = "options: x y z\nwithout: z\n!y | x\nz\nstandard: x y\nwant: y\nfalse\n";
        let second = sheet("s", text);
        let rules = vec![rule(1, 2), rule(4, 1), rule(8, 0), rule(0, 0)];
        let book = Book { options: 4, rules };
        let joint = joint(&first, &second, &[pair(1, 2)], &book).unwrap();
        assert_eq!(joint.names, ["a", "b", "x", "z"]);
        assert_eq!(joint.book(), book);
        assert_eq!(joint.order(), Order { wanted: 1, unwanted: 8, standard: 7 });
        let told = |(demand, place): &(Demand, Place)| {
            format!("{} {place}", demand_text(*demand, &joint.names))
        };
        let told: Vec<String> = joint.demands.iter().map(told).collect();
        let due = [
            "a | !b f: line 4",
            "!a | x s: line 3",
            "z s: line 4",
            "false s: line 7",
            "standard: b f: line 2",
            "want: a f: line 5",
            "without: z s: line 2",
            "standard: x s: line 5",
            "standard: a s: line 5",
        ];
        assert_eq!(told, due);
    }

    #[test]
    fn options_of_the_second_book_follow_up_to_the_last() {
        let names = numbered_names(64).join(" ");
        let first = sheet("f", "options: a b");
        let second = sheet("s", &format!("options: {names}\nwant: x64 x1\nwithout: x63 x3\n"));
        let book = Book { options: 64, rules: Vec::new() };
        let joint = joint(&first, &second, &[pair(2, 1), pair(1, 63)], &book).unwrap();
        assert_eq!(joint.order(), Order { wanted: 1 << 63 | 2, unwanted: 9, standard: 0 });
        assert_eq!([&joint.names[2], &joint.names[62], &joint.names[63]], ["x2", "x62", "x64"]);
    }

    #[test]
    fn wishes_in_opposite_ways_are_a_mistake() {
        let book = Book { options: 1, rules: Vec::new() };
        let of = |first: &str, second: &str| {
            let first = sheet("f", &format!("options: a\n{first}: a\n"));
            let second = sheet("s", &format!("options: x\n\n{second}: x\n"));
            joint(&first, &second, &[pair(1, 1)], &book).map(|joint| joint.order())
        };
        let told = |first, second| of(first, second).unwrap_err().to_string();
        let due = "s: line 3: this is `without: a` in the joint book, and f: line 2 is `want: a`: \
                   expected one of them";
        assert_eq!(told("want", "without"), due);
        let due = "s: line 3: this is `want: a` in the joint book, and f: line 2 is `without: a`: \
                   expected one of them";
        assert_eq!(told("without", "want"), due);
        assert_eq!(of("standard", "without"), Ok(Order { wanted: 0, unwanted: 1, standard: 1 }));
        assert_eq!(of("want", "standard"), Ok(Order { wanted: 1, unwanted: 0, standard: 1 }));
    }
}
