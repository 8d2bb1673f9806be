//! `optbook renumber`: a readable book and order anew, with the options under other numbers, and some of them
//! reversed.

use super::Verb;
use crate::arguments::{Arguments, ANY};
use crate::ending::{Failure, Printed};
use crate::files::{mistake, name, on_one_line, read_sheet};
use optbook::mistake::Place;
use optbook::renumber::{in_sequence, Reversal};
use optbook::sheet::{Demand, Sheet};
use optbook::text::{commented, demand_text, set_names};

pub const VERB: Verb = Verb {
    name: "renumber",
    takes: "BOOK [NAMES...] [--order ORDER] [--reverse NAME=NEW]...",
    does: "writes a book and an order with other numbers for the options, some of them reversed",
    example: "optbook renumber examples/plant.book roof dry --order examples/plant_cannot.order \
              --reverse scrubber=dry",
    more: "\
BOOK is a readable text. NAMES are options in the sequence in which they are to be numbered: the first
is option 1. The others follow after them, in the sequence of BOOK. So without NAMES the numbers stay.

--order ORDER       renumber ORDER too, which is read after BOOK
--reverse NAME=NEW  reverse the option NAME, and call it NEW: to fit NEW is to leave NAME out. The flag
                    may be given again for other options, and NAMES have NEW in place of NAME

The rules keep their sequence, and each line has the place that it comes from as a comment. Of a reversed
option an entry `NAME` of a rule is printed as `!NEW`, and `!NAME` as `NEW`; `want: NAME` is printed as
`without: NEW`, and `without: NAME` as `want: NEW`.

A standard option stays standard. One that is reversed cannot, for a book has no word for left out unless
wanted. Where BOOK or ORDER has a wish for it, the wish says it all, and it is no longer standard. Where
they have none, --order completes the order, and `without: NEW` is printed in place of the standard line;
without --order it is a mistake to reverse it.

A choice of options keeps what was read exactly if the same choice, in the new names, keeps what is
printed. Where both give a verdict, a check of what is printed and one of what was read agree; counts,
derived rules and records may differ, since the steps go by number.

  optbook renumber BOOK NAMES --order ORDER --reverse NAME=NEW | optbook check -

Exit status: 0; 64 bad command line, 65 a mistake in BOOK, ORDER, NAMES or NAME=NEW.
",
    files: (1, ANY),
    flags: &[ORDER],
    repeated: &[REVERSE],
    switches: &[],
    run,
};

const ORDER: &str = "--order";
const REVERSE: &str = "--reverse";

/// A reversed option's name and its new name.
type Renamed<'a> = (&'a str, &'a str);

fn run(arguments: &Arguments) -> Result<Printed, Failure> {
    let words = arguments.values(REVERSE);
    let renamed = words.into_iter().map(name_and_new).collect::<Result<Vec<_>, _>>()?;
    let (book, names) = arguments.files.split_at(1);
    let order = arguments.value(ORDER).map(str::to_string);
    let files: Vec<String> = book.iter().cloned().chain(order.clone()).collect();
    let sheet = read_sheet(&files)?;

    let reversed = reversed(&sheet, &renamed, order.is_some());
    let reversed = reversed.map_err(|what| mistake(REVERSE, on_one_line(what)))?;
    let anew = renumbered(&reversed, names, &renamed);
    let anew = anew.map_err(|what| mistake("NAMES", on_one_line(what)))?;
    Ok(Printed::text(told(&files, &renamed, &anew)))
}

/// The two names in the word after the flag.
fn name_and_new(word: &str) -> Result<Renamed<'_>, Failure> {
    match word.split('=').collect::<Vec<_>>()[..] {
        [name, new] if !name.is_empty() && !new.is_empty() => Ok((name, new)),
        _ => {
            let expected = "expected NAME=NEW, an option and what it is called when it is reversed";
            Err(Failure::Usage(format!("`{REVERSE} {}`: {expected}", on_one_line(word))))
        }
    }
}

/// The sheet with these options reversed. What is wrong with them is told in words: without an order, that a
/// standard option would have to be completed too.
fn reversed(sheet: &Sheet, renamed: &[Renamed], with_order: bool) -> Result<Sheet, String> {
    let reversal = Reversal::of(sheet, renamed)?;
    let incomplete = set_names(reversal.unwished_standard(sheet), &sheet.names);
    match incomplete.first() {
        Some(name) if !with_order => {
            let what = "a book has no word for left out unless wanted";
            let expected = format!("expected `{ORDER} ORDER`, which completes it");
            Err(format!("`{name}` is standard, and {what}: {expected}"))
        }
        _ => Ok(reversal.of_sheet(sheet)),
    }
}

/// The sheet with its options in the sequence of these names. What is wrong with them is told in words: of an
/// option that was reversed the old name, where no other option has it now.
fn renumbered(sheet: &Sheet, names: &[String], renamed: &[Renamed]) -> Result<Sheet, String> {
    let is_gone = |old: &str| !sheet.names.iter().any(|name| name == old);
    let is_listed = |old: &str| names.iter().any(|name| name == old);
    match renamed.iter().find(|(old, _)| is_gone(old) && is_listed(old)) {
        Some((old, new)) => Err(format!("`{old}` is reversed: expected its new name, `{new}`")),
        None => in_sequence(sheet, names),
    }
}

/// The sheet as a text that reads back, with the place that each line comes from.
fn told(files: &[String], renamed: &[Renamed], anew: &Sheet) -> String {
    let files: Vec<String> = files.iter().map(|file| on_one_line(name(file))).collect();
    let mut text = format!("# {} renumbered\n", files.join(" and "));
    if !renamed.is_empty() {
        let pairs: Vec<String> = renamed.iter().map(|(old, new)| format!("{old}={new}")).collect();
        text += &format!("# reversed: {}\n", pairs.join(" "));
    }
    if !anew.names.is_empty() {
        text += &format!("options: {}\n", anew.names.join(" "));
    }
    let line =
        |(demand, place): &(Demand, Place)| (demand_text(*demand, &anew.names), on_one_line(place));
    text + &commented(&anew.demands.iter().map(line).collect::<Vec<_>>())
}

#[cfg(test)]
mod tests {
    use super::*;

    fn sheet(text: &str) -> Sheet {
        Sheet::of("b", text).unwrap()
    }

    fn strings(words: &[&str]) -> Vec<String> {
        words.iter().map(ToString::to_string).collect()
    }

    #[test]
    fn the_word_after_the_flag_is_two_names() {
        assert_eq!(name_and_new("scrubber=dry").ok(), Some(("scrubber", "dry")));
        for word in ["scrubber", "=dry", "scrubber=", "=", "a=b=c", "a==b", "-", ""] {
            let failure = name_and_new(word).err().unwrap();
            let expected = "expected NAME=NEW, an option and what it is called when it is reversed";
            let due = format!("`--reverse {word}`: {expected}");
            assert_eq!((failure.to_string(), failure.status()), (due, 64));
        }
        let failure = name_and_new("a\nb\u{1b}").err().unwrap();
        assert!(failure.to_string().starts_with("`--reverse a?b?`: "), "{failure}");
    }

    #[test]
    fn a_standard_option_is_reversed_with_an_order_or_where_there_is_a_wish() {
        let of = |text: &str, with_order| {
            let sheet = sheet(&format!("options: a b c\nstandard: b a\n{text}"));
            let reversed = reversed(&sheet, &[("c", "z"), ("a", "x"), ("b", "y")], with_order);
            reversed.map(|sheet| sheet.order())
        };
        let order = |wanted, unwanted| Ok(optbook::Order { wanted, unwanted, standard: 0 });
        assert_eq!(of("", true), order(0, 3));
        assert_eq!(of("without: a\n", true), order(1, 2));
        for with_order in [false, true] {
            assert_eq!(of("want: a\nwithout: b\n", with_order), order(2, 1));
        }
        let due = |name| {
            let what = "a book has no word for left out unless wanted";
            let expected = "expected `--order ORDER`, which completes it";
            Err(format!("`{name}` is standard, and {what}: {expected}"))
        };
        assert_eq!([of("", false), of("want: a\n", false)], [due("a"), due("b")]);
        assert_eq!(of("without: b\nwant: c\n", false), due("a"));
    }

    #[test]
    fn an_old_name_is_told_with_the_new_one() {
        let sheet = sheet("options: a b c\n");
        let of = |names: &[&str], renamed: &[Renamed]| {
            let sheet = reversed(&sheet, renamed, false).unwrap();
            renumbered(&sheet, &strings(names), renamed).map(|anew| anew.names.join(" "))
        };
        for names in [["c", "b"], ["b", "y"], ["d", "b"]] {
            let due = "`b` is reversed: expected its new name, `y`";
            assert_eq!(of(&names, &[("b", "y")]), Err(due.to_string()));
        }
        assert_eq!(of(&["c", "y"], &[("b", "y")]), Ok("c y a".to_string()));
        assert_eq!(of(&["b", "c"], &[("a", "b"), ("b", "a")]), Ok("b c a".to_string()));
        assert_eq!(of(&["a"], &[("a", "x"), ("b", "a")]), Ok("a x c".to_string()));
        let unknown = "no option is named `d`: expected a name of an `options:` line";
        assert_eq!(of(&["d"], &[("b", "y")]), Err(unknown.to_string()));
    }

    #[test]
    fn what_is_told_is_a_readable_text_with_places() {
        let sheet = sheet("options: a b\n!a | b\nstandard: b\n\nwant: a\nfalse\n");
        let renamed = [("a", "x")];
        let reversed = reversed(&sheet, &renamed, false).unwrap();
        let anew = renumbered(&reversed, &strings(&["b"]), &renamed).unwrap();
        let text = told(&strings(&["b", "-"]), &renamed, &anew);
        let due = "# b and standard input renumbered\n\
                   # reversed: a=x\n\
                   options: b x\n\
                   b | x        # b: line 2\n\
                   standard: b  # b: line 3\n\
                   without: x   # b: line 5\n\
                   false        # b: line 6\n";
        assert_eq!(text, due);
        let read = Sheet::of("anew", &text).unwrap();
        let parts = |sheet: &Sheet| (sheet.names.clone(), sheet.book(), sheet.order());
        assert_eq!(parts(&read), parts(&anew));
    }

    #[test]
    fn where_nothing_is_named_nothing_is_told_of_it() {
        let of = |text: &str| told(&strings(&["f\n"]), &[], &Sheet::of("f\n", text).unwrap());
        assert_eq!(of(""), "# f? renumbered\n");
        assert_eq!(of("false\n"), "# f? renumbered\nfalse  # f?: line 1\n");
        assert_eq!(Sheet::of("anew", &of("")), Ok(Sheet::default()));
    }
}
