//! `optbook join`: two readable books, of which some options are the same thing, as one. The library joins
//! their bytes.

use super::Verb;
use crate::arguments::{Arguments, ANY};
use crate::ending::{Failure, Printed};
use crate::files::{mistake, name, on_one_line, read_sheet};
use optbook::engine::join;
use optbook::join::{clashing, joint, pair_bytes, same_names, Pair};
use optbook::outcome::refusal;
use optbook::sheet::Sheet;
use optbook::text::{commented, demand_text, set_text};

pub const VERB: Verb = Verb {
    name: "join",
    takes: "FIRST SECOND PAIRS... [--same-names]",
    does: "writes two books, of which some options are the same thing, as one readable book",
    example: "optbook join examples/dosing.book examples/drying.book cabinet=panel --same-names",
    more: "\
FIRST and SECOND are readable books. Each of PAIRS is NAME=NAME: an option of FIRST, and the option of
SECOND that is the same thing. There may be none. Options of one name in both books have to be paired, or
named apart in one of them.

--same-names  pair all options that have one name in both books, where none of PAIRS has either

The joint book has the options of FIRST, under their names and with their numbers, and then those of
SECOND that are in no pair. Its rules are those of FIRST, and then those of SECOND, each with the place
that it comes from as a comment. The standard options and wishes of both books follow, each once. An
option that is wanted in one book and unwanted in the other is a mistake.

A choice of options keeps the joint book exactly if its part in FIRST keeps FIRST and its part in SECOND
keeps SECOND. What is printed can be checked:

  optbook join FIRST SECOND --same-names | optbook check - ORDER

An option that stands in two pairs is refused (number 22), as is a joint book of more than 64 options or
1,024 rules (number 23). This is told on standard error, and nothing is printed.

Exit status: 0; 2 refused, 64 bad command line, 65 a mistake in FIRST, SECOND or PAIRS.
",
    files: (2, ANY),
    flags: &[],
    repeated: &[],
    switches: &[SAME_NAMES],
    run,
};

const SAME_NAMES: &str = "--same-names";

/// A book: its file, and what is read there.
struct Side {
    file: String,
    sheet: Sheet,
}

impl Side {
    fn read(file: &String) -> Result<Side, Failure> {
        let sheet = read_sheet(std::slice::from_ref(file))?;
        Ok(Side { file: on_one_line(name(file)), sheet })
    }

    /// The option with this name, as a set.
    fn find(&self, name: &str) -> Result<u64, String> {
        self.sheet.find(name).map_err(|what| format!("{}: {what}", self.file))
    }

    fn name(&self, option: u64) -> String {
        set_text(option, &self.sheet.names)
    }
}

fn run(arguments: &Arguments) -> Result<Printed, Failure> {
    let (files, words) = arguments.files.split_at(2);
    let named = words.iter().map(|word| names(word)).collect::<Result<Vec<_>, _>>()?;
    let (first, second) = (Side::read(&files[0])?, Side::read(&files[1])?);
    let pairs = pairs(&first, &second, &named, arguments.has(SAME_NAMES));
    let pairs = pairs.map_err(|what| mistake("PAIRS", what))?;
    match join(&first.sheet.book(), &second.sheet.book(), &pair_bytes(&pairs))? {
        Ok(book) => {
            let joint = joint(&first.sheet, &second.sheet, &pairs, &book)?;
            Ok(Printed::text(told(&first, &second, &pairs, &joint)))
        }
        Err(number) => Err(Failure::Refused(refused(number, &first, &second, &pairs))),
    }
}

/// The two names of a pair.
fn names(word: &str) -> Result<(&str, &str), Failure> {
    match word.split('=').collect::<Vec<_>>()[..] {
        [first, second] if !first.is_empty() && !second.is_empty() => Ok((first, second)),
        _ => {
            let expected = "expected NAME=NAME, an option of FIRST and the same of SECOND";
            Err(Failure::Usage(format!("`{}` is no pair: {expected}", on_one_line(word))))
        }
    }
}

/// The pairs of these names, and those of one name in both books, if they are asked for. What is wrong with
/// them is told in words.
fn pairs(
    first: &Side,
    second: &Side,
    named: &[(&str, &str)],
    with_same_names: bool,
) -> Result<Vec<Pair>, String> {
    let pair = |&(one, other): &(&str, &str)| {
        Ok(Pair { first: first.find(one)?, second: second.find(other)? })
    };
    let mut pairs = named.iter().map(pair).collect::<Result<Vec<_>, String>>()?;
    if with_same_names {
        pairs.extend(same_names(&first.sheet, &second.sheet, &pairs));
    }
    let clashing = clashing(&first.sheet, &second.sheet, &pairs);
    let Some(name) = clashing.first() else { return Ok(pairs) };
    let what = format!("both books name {}, and no pair takes them as one", clashing.join(" "));
    let other = "other names in one of the books";
    Err(match with_same_names {
        true => format!("{what}: expected {other}"),
        false => {
            let same = format!("`{name}={name}` or `{SAME_NAMES}` where they are the same thing");
            format!("{what}: expected {same}, and else {other}")
        }
    })
}

/// The joint book as a text that reads back, with the place that each line comes from.
fn told(first: &Side, second: &Side, pairs: &[Pair], joint: &Sheet) -> String {
    let paired: Vec<String> = pairs
        .iter()
        .map(|pair| format!("{}={}", first.name(pair.first), second.name(pair.second)))
        .collect();
    let mut text = format!("# {} and {} joined\n", first.file, second.file);
    if !paired.is_empty() {
        text += &format!("# pairs: {}\n", paired.join(" "));
    }
    let (of_first, of_second) = joint.names.split_at(first.sheet.names.len());
    let mut lines = Vec::new();
    for (names, side) in [(of_first, first), (of_second, second)] {
        if !names.is_empty() {
            lines.push((format!("options: {}", names.join(" ")), side.file.clone()));
        }
    }
    for (demand, place) in &joint.demands {
        lines.push((demand_text(*demand, &joint.names), on_one_line(place)));
    }
    text + &commented(&lines)
}

/// A refusal in words, with what it is about.
fn refused(number: u32, first: &Side, second: &Side, pairs: &[Pair]) -> String {
    let about = match number {
        22 => twice(first, second, pairs),
        23 => {
            let options = first.sheet.names.len() + second.sheet.names.len() - pairs.len();
            let rules = first.sheet.book().rules.len() + second.sheet.book().rules.len();
            Some(format!("options {options}, rules {rules}"))
        }
        _ => None,
    };
    match about {
        Some(about) => format!("{}: {about}", refusal(number)),
        None => refusal(number),
    }
}

/// The first option that stands in a second pair.
fn twice(first: &Side, second: &Side, pairs: &[Pair]) -> Option<String> {
    let told = |side: &Side, option| {
        format!("`{}` of {} stands in two pairs", side.name(option), side.file)
    };
    for (index, pair) in pairs.iter().enumerate() {
        let before = &pairs[..index];
        if before.iter().any(|known| known.first == pair.first) {
            return Some(told(first, pair.first));
        }
        if before.iter().any(|known| known.second == pair.second) {
            return Some(told(second, pair.second));
        }
    }
    None
}

#[cfg(test)]
mod tests {
    use super::*;
    use optbook::{Book, Rule};

    fn side(file: &str, text: &str) -> Side {
        Side { file: file.to_string(), sheet: Sheet::of(file, text).unwrap() }
    }

    fn pair(first: u64, second: u64) -> Pair {
        Pair { first, second }
    }

    #[test]
    fn a_pair_is_two_names() {
        assert_eq!(names("steam=vapour").ok(), Some(("steam", "vapour")));
        for word in ["steam", "=steam", "steam=", "=", "a=b=c", "a==b", ""] {
            let failure = names(word).err().unwrap();
            let expected = "expected NAME=NAME, an option of FIRST and the same of SECOND";
            let due = format!("`{word}` is no pair: {expected}");
            assert_eq!((failure.to_string(), failure.status()), (due, 64));
        }
    }

    #[test]
    fn pairs_are_those_of_the_names_and_of_the_same_names() {
        let (first, second) = (side("f", "options: a b c"), side("s", "options: b x c"));
        let of = |named: &[(&str, &str)], same_names| pairs(&first, &second, named, same_names);
        let due = vec![pair(1, 2), pair(2, 1), pair(4, 4)];
        assert_eq!(of(&[("a", "x")], true), Ok(due.clone()));
        assert_eq!(of(&[("a", "x"), ("b", "b"), ("c", "c")], false), Ok(due));
        assert_eq!(of(&[], true), Ok(vec![pair(2, 1), pair(4, 4)]));
        assert_eq!(of(&[("c", "b"), ("a", "c")], false), Ok(vec![pair(4, 1), pair(1, 4)]));
    }

    #[test]
    fn a_name_that_a_book_has_not_and_names_that_clash_are_told() {
        let (first, second) = (side("f", "options: a b c"), side("s", "options: b x c"));
        let of = |named: &[(&str, &str)], same_names| {
            pairs(&first, &second, named, same_names).unwrap_err()
        };
        let unknown = "no option is named `x`: expected a name of an `options:` line";
        assert_eq!(of(&[("x", "a")], true), format!("f: {unknown}"));
        let unknown = "no option is named `a`: expected a name of an `options:` line";
        assert_eq!(of(&[("a", "a")], true), format!("s: {unknown}"));
        let due = "both books name b c, and no pair takes them as one: expected `b=b` or \
                   `--same-names` where they are the same thing, and else other names in one of the \
                   books";
        assert_eq!(of(&[("a", "x")], false), due);
        let due = "both books name b, and no pair takes them as one: expected other names in one \
                   of the books";
        assert_eq!(of(&[("b", "x")], true), due);
    }

    #[test]
    fn what_is_told_is_a_readable_book_with_places() {
        let first = side("f", "options: a b\n!a | b\nstandard: b\n");
        let second = side("s", "options: x y\nx | y\nstandard: x\n\nwant: y\n");
        let rules = vec![Rule { fitted: 2, left_out: 1 }, Rule { fitted: 6, left_out: 0 }];
        let book = Book { options: 3, rules };
        let pairs = [pair(2, 1)];
        let joint = joint(&first.sheet, &second.sheet, &pairs, &book).unwrap();
        let due = "# f and s joined\n\
                   # pairs: b=x\n\
                   options: a b  # f\n\
                   options: y    # s\n\
                   !a | b        # f: line 2\n\
                   b | y         # s: line 2\n\
                   standard: b   # f: line 3\n\
                   want: y       # s: line 5\n";
        let text = told(&first, &second, &pairs, &joint);
        assert_eq!(text, due);
        let read = Sheet::of("joint", &text).unwrap();
        assert_eq!((&read.names, read.book(), read.order()), (&joint.names, book, joint.order()));
    }

    #[test]
    fn where_nothing_is_named_nothing_is_told_of_it() {
        let (first, second) = (side("f", ""), side("s", "false\n"));
        let book = Book { options: 0, rules: vec![Rule::default()] };
        let joint = joint(&first.sheet, &second.sheet, &[], &book).unwrap();
        let due = "# f and s joined\nfalse  # s: line 1\n";
        assert_eq!(told(&first, &second, &[], &joint), due);
    }

    #[test]
    fn a_refusal_is_told_with_what_it_is_about() {
        let (first, second) = (side("f", "options: a b\na\n"), side("s", "options: x y\nx\ny\n"));
        let of = |number, pairs: &[Pair]| refused(number, &first, &second, pairs);
        let twice = |pairs: &[Pair]| {
            let told = of(22, pairs);
            told.rsplit_once(": ").unwrap().1.to_string()
        };
        assert_eq!(twice(&[pair(1, 1), pair(1, 2)]), "`a` of f stands in two pairs");
        assert_eq!(twice(&[pair(2, 1), pair(1, 2), pair(2, 2)]), "`b` of f stands in two pairs");
        assert_eq!(twice(&[pair(1, 2), pair(2, 2)]), "`y` of s stands in two pairs");
        let told = of(23, &[pair(1, 1)]);
        assert!(told.starts_with("refused, number 23: the joint book has more than 64 options"));
        assert!(told.ends_with(": options 3, rules 3"), "{told}");
        assert_eq!(of(6, &[]), refusal(6));
    }
}
