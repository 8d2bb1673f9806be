//! A book and an order written anew: with options reversed, so that to fit one is to leave out what it was,
//! and with the options in another sequence, which gives them other numbers. The reversal comes first, under
//! the old numbers.

use crate::mistake::Place;
use crate::sheet::{check_name, Demand, Sheet};
use crate::{number, option, Order, Rule};

/// The options of a sheet that are reversed, as a set, and what all its options are called then.
#[derive(Debug, PartialEq, Eq)]
pub struct Reversal {
    pub options: u64,
    pub names: Vec<String>,
}

impl Reversal {
    /// The reversal of options, each given by its name and by its new name. What is wrong with them is told in
    /// words.
    pub fn of(sheet: &Sheet, renamed: &[(&str, &str)]) -> Result<Reversal, String> {
        let mut options = 0;
        let mut names = sheet.names.clone();
        for &(name, new) in renamed {
            let option = sheet.find(name)?;
            if options & option != 0 {
                return Err(format!("`{name}` is reversed twice: expected it once"));
            }
            check_name(new)?;
            if name == new {
                let what = format!("`{name}` is reversed and keeps its name");
                return Err(format!("{what}, which says the opposite then: expected a new name"));
            }
            options |= option;
            names[index(option)] = new.to_string();
        }
        let before = |(index, name): &(usize, &String)| names[..*index].contains(name);
        match names.iter().enumerate().find(before) {
            Some((_, name)) => {
                Err(format!("two options are called `{name}` then: expected each name once"))
            }
            None => Ok(Reversal { options, names }),
        }
    }

    /// The reversed options that are standard and that the sheet has no wish for. No line says that an option
    /// is left out unless it is wanted, so that they can be reversed in a completed order alone.
    pub fn unwished_standard(&self, sheet: &Sheet) -> u64 {
        let Order { wanted, unwanted, standard } = sheet.order();
        self.options & standard & !(wanted | unwanted)
    }

    /// The sheet with the options reversed, under the numbers that they have. One that is standard is
    /// completed before: where there is a wish for it the wish says it all, and otherwise it is wanted, at the
    /// place where it is standard.
    pub fn of_sheet(&self, sheet: &Sheet) -> Sheet {
        let unwished = self.unwished_standard(sheet);
        let is_reversed = |option: u64| self.options & option != 0;
        let demand = |demand: Demand| match demand {
            Demand::Rule(rule) => Some(Demand::Rule(self.of_rule(rule))),
            Demand::Standard(option) if is_reversed(option) => {
                (unwished & option != 0).then_some(Demand::Without(option))
            }
            Demand::Want(option) if is_reversed(option) => Some(Demand::Without(option)),
            Demand::Without(option) if is_reversed(option) => Some(Demand::Want(option)),
            Demand::Standard(_) | Demand::Want(_) | Demand::Without(_) => Some(demand),
        };
        let placed =
            |(of, place): &(Demand, Place)| demand(*of).map(|demand| (demand, place.clone()));
        let demands = sheet.demands.iter().filter_map(placed).collect();
        Sheet { names: self.names.clone(), demands }
    }

    fn of_rule(&self, Rule { fitted, left_out }: Rule) -> Rule {
        let or_reversed = |of: u64, other: u64| (of & !self.options) | (other & self.options);
        Rule { fitted: or_reversed(fitted, left_out), left_out: or_reversed(left_out, fitted) }
    }
}

/// The sheet with its options in another sequence: those with these names, and then the others as they follow
/// one another in the sheet. What is wrong with the names is told in words.
pub fn in_sequence(sheet: &Sheet, names: &[String]) -> Result<Sheet, String> {
    let mut sequence = Vec::new();
    for name in names {
        let option = sheet.find(name)?;
        if sequence.contains(&option) {
            return Err(format!("`{name}` stands twice: expected it once"));
        }
        sequence.push(option);
    }
    for option in (0..sheet.names.len()).map(option) {
        if !sequence.contains(&option) {
            sequence.push(option);
        }
    }
    let moved = |set: u64| {
        let members = sequence.iter().enumerate().filter(|(_, &old)| set & old != 0);
        members.fold(0, |moved, (index, _)| moved | option(index))
    };
    let demand = |demand: Demand| match demand {
        Demand::Rule(Rule { fitted, left_out }) => {
            Demand::Rule(Rule { fitted: moved(fitted), left_out: moved(left_out) })
        }
        Demand::Standard(option) => Demand::Standard(moved(option)),
        Demand::Want(option) => Demand::Want(moved(option)),
        Demand::Without(option) => Demand::Without(moved(option)),
    };
    Ok(Sheet {
        names: sequence.iter().map(|&old| sheet.names[index(old)].clone()).collect(),
        demands: sheet.demands.iter().map(|(of, place)| (demand(*of), place.clone())).collect(),
    })
}

/// Where the name of an option stands that is given as a set.
fn index(option: u64) -> usize {
    number(option) as usize - 1
}

#[cfg(test)]
mod tests {
    use super::*;
    use crate::text::{demand_text, numbered_names};

    fn sheet(text: &str) -> Sheet {
        Sheet::of("b", text).unwrap()
    }

    fn strings(names: &[&str]) -> Vec<String> {
        names.iter().map(ToString::to_string).collect()
    }

    /// Each demand as a line, with the line that it comes from.
    fn lines(sheet: &Sheet) -> Vec<String> {
        let line = |(demand, place): &(Demand, Place)| {
            format!("{} < {}", demand_text(*demand, &sheet.names), place.line)
        };
        sheet.demands.iter().map(line).collect()
    }

    #[test]
    fn a_reversal_is_a_set_and_names() {
        let sheet = sheet("options: a b c\n");
        let of = |renamed: &[(&str, &str)]| Reversal::of(&sheet, renamed);
        let due = |options, names: &[&str]| Ok(Reversal { options, names: strings(names) });
        assert_eq!(of(&[]), due(0, &["a", "b", "c"]));
        assert_eq!(of(&[("c", "z"), ("a", "x")]), due(5, &["x", "b", "z"]));
        assert_eq!(of(&[("a", "b"), ("b", "a")]), due(3, &["b", "a", "c"]));
        assert_eq!(of(&[("c", "a"), ("a", "c"), ("b", "d")]), due(7, &["c", "d", "a"]));
        assert_eq!(of(&[("a", "x"), ("b", "a")]), due(3, &["x", "a", "c"]));
    }

    #[test]
    fn each_mistake_in_a_reversal_is_told() {
        let sheet = sheet("options: a b c\n");
        let name = "expected letters, digits and underscores, with no digit first";
        let due = [
            (&[("d", "x")][..], "no option is named `d`: expected a name of an `options:` line"),
            (
                &[("a", "x"), ("x", "y")],
                "no option is named `x`: expected a name of an `options:` line",
            ),
            (&[("!a", "x")], &format!("`!a` is no option's name: {name}")),
            (&[("a", "x"), ("b", "y"), ("a", "z")], "`a` is reversed twice: expected it once"),
            (&[("a", "x"), ("a", "x")], "`a` is reversed twice: expected it once"),
            (&[("a", "2nd")], &format!("`2nd` is no option's name: {name}")),
            (&[("a", "x y")], &format!("`x y` is no option's name: {name}")),
            (&[("a", "!a")], &format!("`!a` is no option's name: {name}")),
            (
                &[("a", "false")],
                "`false` is the empty rule and no option: expected it alone on its line",
            ),
            (
                &[("b", "b")],
                "`b` is reversed and keeps its name, which says the opposite then: expected a new \
                 name",
            ),
            (&[("a", "b")], "two options are called `b` then: expected each name once"),
            (&[("c", "b")], "two options are called `b` then: expected each name once"),
            (&[("a", "x"), ("c", "x")], "two options are called `x` then: expected each name once"),
            (&[("a", "b"), ("b", "c")], "two options are called `c` then: expected each name once"),
        ];
        for (renamed, what) in due {
            assert_eq!(Reversal::of(&sheet, renamed), Err(what.to_string()), "{renamed:?}");
        }
    }

    #[test]
    fn rules_and_wishes_of_reversed_options_are_turned_over() {
        let text = "options: a b c\na | !b | !c\nwant: a\nwithout: b\n!a | b\nfalse\nwithout: c\n";
        let of = |renamed: &[(&str, &str)]| {
            let sheet = sheet(text);
            lines(&Reversal::of(&sheet, renamed).unwrap().of_sheet(&sheet))
        };
        let due = [
            "!x | y | !c < 2",
            "without: x < 3",
            "want: y < 4",
            "x | !y < 5",
            "false < 6",
            "without: c < 7",
        ];
        assert_eq!(of(&[("b", "y"), ("a", "x")]), due);
        let sheet = sheet(text);
        assert_eq!(Reversal::of(&sheet, &[]).unwrap().of_sheet(&sheet), sheet);
    }

    /// Of the four that are reversed, a is wanted, b unwanted, and c has no wish; d is not standard.
    #[test]
    fn a_reversed_option_that_is_standard_is_completed() {
        let sheet = sheet("options: a b c d e\nstandard: a b c e\nwithout: b\nwant: a\n");
        let renamed = [("a", "s"), ("b", "t"), ("c", "u"), ("d", "v")];
        let reversal = Reversal::of(&sheet, &renamed).unwrap();
        assert_eq!(reversal.unwished_standard(&sheet), 4);
        let reversed = reversal.of_sheet(&sheet);
        let due = ["without: u < 2", "standard: e < 2", "want: t < 3", "without: s < 4"];
        assert_eq!(lines(&reversed), due);
        let [before, after] = [&sheet, &reversed].map(|sheet| sheet.order().completed());
        assert_eq!(before, Order { wanted: 21, unwanted: 2, standard: 0 });
        assert_eq!(after, Order { wanted: 18, unwanted: 5, standard: 0 });
    }

    #[test]
    fn options_stand_in_the_sequence_of_the_names_and_then_as_before() {
        let sheet = sheet("options: a b c d\na | !b | d\nstandard: b\nwant: d\nwithout: c\n!a\n");
        let of = |names: &[&str]| in_sequence(&sheet, &strings(names)).unwrap();
        let anew = of(&["c", "a"]);
        assert_eq!(anew.names, ["c", "a", "b", "d"]);
        let due = ["a | !b | d < 2", "standard: b < 3", "want: d < 4", "without: c < 5", "!a < 6"];
        assert_eq!(lines(&anew), due);
        let rules = [Rule { fitted: 10, left_out: 4 }, Rule { fitted: 0, left_out: 2 }];
        assert_eq!(anew.book().rules, rules);
        assert_eq!(anew.order(), Order { wanted: 8, unwanted: 1, standard: 4 });
        assert_eq!(lines(&of(&["d", "c", "b", "a"]))[0], "d | !b | a < 2");
        for names in [&[][..], &["a"], &["a", "b", "c", "d"]] {
            assert_eq!(of(names), sheet);
        }
    }

    #[test]
    fn names_are_those_of_the_sheet_each_once() {
        let sheet = sheet("options: a b c\n");
        let of = |names: &[&str]| in_sequence(&sheet, &strings(names)).unwrap_err();
        assert_eq!(of(&["b", "c", "b"]), "`b` stands twice: expected it once");
        let unknown = "no option is named `d`: expected a name of an `options:` line";
        assert_eq!(of(&["a", "d"]), unknown);
        let early = "`a` is not named yet: expected an `options:` line before it";
        assert_eq!(in_sequence(&Sheet::default(), &strings(&["a"])), Err(early.to_string()));
        assert_eq!(in_sequence(&Sheet::default(), &[]), Ok(Sheet::default()));
    }

    #[test]
    fn the_last_option_may_become_the_first_and_be_reversed() {
        let names = numbered_names(64).join(" ");
        let sheet = sheet(&format!("options: {names}\nx1 | !x64\nwant: x64\nstandard: x63\n"));
        let reversal = Reversal::of(&sheet, &[("x64", "y"), ("x1", "z")]).unwrap();
        let anew = in_sequence(&reversal.of_sheet(&sheet), &strings(&["y", "x2"])).unwrap();
        assert_eq!([&anew.names[0], &anew.names[2], &anew.names[63]], ["y", "z", "x63"]);
        assert_eq!(lines(&anew), ["y | !z < 2", "without: y < 3", "standard: x63 < 4"]);
        assert_eq!(anew.book().rules, [Rule { fitted: 1, left_out: 4 }]);
        assert_eq!(anew.order(), Order { wanted: 0, unwanted: 1, standard: 1 << 63 });
    }
}
