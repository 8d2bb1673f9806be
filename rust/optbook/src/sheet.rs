//! Reading the readable form of a book and an order, one thing a line:
//!
//! ```text
//! # what is to be fitted
//! options: ring_main twin_header third_vessel
//! ring_main | twin_header | !third_vessel
//! standard: twin_header
//! want: ring_main
//! without: third_vessel
//! ```
//!
//! `options:` names the options, the first being option 1; it stands before all else and may be
//! repeated. A rule is entries with `|` between them; `!` says that leaving the option out keeps
//! the rule. `false` alone is the empty rule, which nothing keeps. `standard:` names options that
//! are taken as wanted unless the order has them without. `want:` and `without:` add to the order.
//! `#` begins a comment. A name is letters, digits and underscores, and begins with no digit.

use crate::mistake::{Mistake, Place};
use crate::text::EMPTY_RULE;
use crate::{option, Book, Order, Rule, OPTIONS, RULES};

/// What must be kept: a rule of the book, a standard option, or a wish of the order for one option.
/// An option is given as a set.
#[derive(Clone, Copy, Debug, PartialEq, Eq)]
pub enum Demand {
    Rule(Rule),
    Standard(u64),
    Want(u64),
    Without(u64),
}

/// The options' names, and the demands of a book and an order, each with its place.
#[derive(Clone, Debug, Default, PartialEq, Eq)]
pub struct Sheet {
    pub names: Vec<String>,
    pub demands: Vec<(Demand, Place)>,
}

/// The rules among these demands.
pub fn rules<'a>(demands: impl IntoIterator<Item = &'a Demand>) -> Vec<Rule> {
    let rule = |demand: &Demand| match demand {
        Demand::Rule(rule) => Some(*rule),
        Demand::Standard(_) | Demand::Want(_) | Demand::Without(_) => None,
    };
    demands.into_iter().filter_map(rule).collect()
}

/// The standard options and the wishes among these demands, as one order.
pub fn order<'a>(demands: impl IntoIterator<Item = &'a Demand>) -> Order {
    let mut order = Order::default();
    for demand in demands {
        match demand {
            Demand::Rule(_) => (),
            Demand::Standard(option) => order.standard |= option,
            Demand::Want(option) => order.wanted |= option,
            Demand::Without(option) => order.unwanted |= option,
        }
    }
    order
}

impl Sheet {
    /// The sheet of one text.
    pub fn of(file: &str, text: &str) -> Result<Sheet, Mistake> {
        let mut sheet = Sheet::default();
        sheet.read(file, text).map(|()| sheet)
    }

    /// Reads a text into the sheet, after what it already holds.
    pub fn read(&mut self, file: &str, text: &str) -> Result<(), Mistake> {
        self.read_lines(file, text, Sheet::read_line)
    }

    /// Reads the text of one of several orders, which has standard options and wishes alone: options
    /// and rules are the book's, which all orders share.
    pub fn read_order(&mut self, file: &str, text: &str) -> Result<(), Mistake> {
        self.read_lines(file, text, Sheet::read_order_line)
    }

    pub fn book(&self) -> Book {
        Book { options: self.names.len(), rules: rules(self.kept()) }
    }

    pub fn order(&self) -> Order {
        order(self.kept())
    }

    /// The demands of the book and the completed order. A standard option that is wanted or unwanted
    /// is none of its own: the wish says it. So each of them can be left out by itself, and no wish
    /// that is left out makes an option wanted.
    pub fn completed_demands(&self) -> Vec<&(Demand, Place)> {
        let Order { wanted, unwanted, .. } = self.order();
        let is_own = |demand: &Demand| match demand {
            Demand::Standard(option) => (wanted | unwanted) & option == 0,
            Demand::Rule(_) | Demand::Want(_) | Demand::Without(_) => true,
        };
        self.demands.iter().filter(|(demand, _)| is_own(demand)).collect()
    }

    fn kept(&self) -> impl Iterator<Item = &Demand> {
        self.demands.iter().map(|(demand, _)| demand)
    }

    /// Reads each line, without its comment.
    fn read_lines(
        &mut self,
        file: &str,
        text: &str,
        read: fn(&mut Sheet, &Place, &str) -> Result<(), String>,
    ) -> Result<(), Mistake> {
        for (index, line) in text.lines().enumerate() {
            let place = Place { file: file.to_string(), line: index + 1 };
            let line = line.split('#').next().unwrap_or("").trim();
            read(self, &place, line).map_err(|what| Mistake { place, what })?;
        }
        Ok(())
    }

    fn read_order_line(&mut self, place: &Place, line: &str) -> Result<(), String> {
        let what = match line.split_once(':') {
            Some((word, _)) if word.trim() == "options" => "`options:` stands in an order",
            None if !line.is_empty() => "a rule stands in an order",
            _ => return self.read_line(place, line),
        };
        Err(format!("{what}: expected it in the book, which all orders share"))
    }

    fn read_line(&mut self, place: &Place, line: &str) -> Result<(), String> {
        if line.is_empty() {
            return Ok(());
        }
        let Some((word, rest)) = line.split_once(':') else {
            return self.read_rule(place, line);
        };
        match word.trim() {
            "options" => self.read_options(rest),
            "standard" => self.read_standard(place, rest),
            "want" => self.read_wishes(place, rest, Demand::Want),
            "without" => self.read_wishes(place, rest, Demand::Without),
            other => Err(format!(
                "`{other}:` is unknown: expected `options:`, `standard:`, `want:`, `without:` or a \
                 rule"
            )),
        }
    }

    fn read_options(&mut self, names: &str) -> Result<(), String> {
        if !self.demands.is_empty() {
            let what = "`options:` stands after a rule, a standard option or a wish";
            return Err(format!("{what}: expected all options before them"));
        }
        for name in names.split_whitespace() {
            check_name(name)?;
            if self.names.iter().any(|known| known == name) {
                return Err(format!("option `{name}` is named twice: expected each name once"));
            }
            if self.names.len() == OPTIONS {
                let number = OPTIONS + 1;
                return Err(format!("`{name}` is option {number}: expected at most {OPTIONS}"));
            }
            self.names.push(name.to_string());
        }
        Ok(())
    }

    fn read_rule(&mut self, place: &Place, line: &str) -> Result<(), String> {
        if rules(self.kept()).len() == RULES {
            return Err(format!("this is rule {}: expected at most {RULES}", RULES + 1));
        }
        let mut rule = Rule::default();
        if line != EMPTY_RULE {
            for entry in line.split('|') {
                self.add_entry(&mut rule, entry.trim())?;
            }
        }
        self.demands.push((Demand::Rule(rule), place.clone()));
        Ok(())
    }

    fn add_entry(&self, rule: &mut Rule, entry: &str) -> Result<(), String> {
        let (name, word, other) = match entry.strip_prefix('!') {
            Some(name) => (name.trim(), &mut rule.left_out, rule.fitted),
            None => (entry, &mut rule.fitted, rule.left_out),
        };
        if name.is_empty() {
            let expected = "expected an option, or `!` and an option, on each side of a `|`";
            return Err(format!("an entry names no option: {expected}"));
        }
        let option = self.find(name)?;
        let once = "expected each option once in a rule";
        if other & option != 0 {
            return Err(format!("`{name}` stands both with and without `!`: {once}"));
        }
        if *word & option != 0 {
            return Err(format!("`{name}` stands twice: {once}"));
        }
        *word |= option;
        Ok(())
    }

    fn read_standard(&mut self, place: &Place, names: &str) -> Result<(), String> {
        for name in names.split_whitespace() {
            let demand = Demand::Standard(self.find(name)?);
            if self.kept().any(|known| *known == demand) {
                return Err(format!("`{name}` stands twice as standard: expected it once"));
            }
            self.demands.push((demand, place.clone()));
        }
        Ok(())
    }

    fn read_wishes(
        &mut self,
        place: &Place,
        names: &str,
        wish: fn(u64) -> Demand,
    ) -> Result<(), String> {
        for name in names.split_whitespace() {
            let option = self.find(name)?;
            let demand = wish(option);
            if self.kept().any(|known| *known == demand) {
                return Err(format!("`{name}` stands twice in the order: expected it once"));
            }
            let order = self.order();
            if (order.wanted | order.unwanted) & option != 0 {
                return Err(format!("`{name}` is both wanted and unwanted: expected one of them"));
            }
            self.demands.push((demand, place.clone()));
        }
        Ok(())
    }

    /// The option with this name, as a set.
    pub fn find(&self, name: &str) -> Result<u64, String> {
        check_name(name)?;
        match self.names.iter().position(|known| known == name) {
            Some(index) => Ok(option(index)),
            None if self.names.is_empty() => {
                Err(format!("`{name}` is not named yet: expected an `options:` line before it"))
            }
            None => {
                Err(format!("no option is named `{name}`: expected a name of an `options:` line"))
            }
        }
    }
}

pub fn check_name(name: &str) -> Result<(), String> {
    if name == EMPTY_RULE {
        let expected = "expected it alone on its line";
        return Err(format!("`{EMPTY_RULE}` is the empty rule and no option: {expected}"));
    }
    let begins = name.starts_with(|c: char| c.is_ascii_alphabetic() || c == '_');
    if begins && name.chars().all(|c| c.is_ascii_alphanumeric() || c == '_') {
        return Ok(());
    }
    let expected = "expected letters, digits and underscores, with no digit first";
    Err(format!("`{name}` is no option's name: {expected}"))
}

#[cfg(test)]
mod tests {
    use super::*;
    use crate::text::numbered_names;

    fn mistake(text: &str) -> String {
        Sheet::of("b", text).unwrap_err().to_string()
    }

    #[test]
    fn a_book_and_an_order_are_read() {
        let sheet = Sheet::of(
            "b",
            "# a plant\noptions: ring_main twin_header\noptions: third_vessel # more\n\n\
             ring_main | twin_header | !third_vessel\n! ring_main\nfalse\n\
             standard: third_vessel twin_header\n\
             want: twin_header\nwithout: third_vessel ring_main\n",
        )
        .unwrap();
        assert_eq!(sheet.names, ["ring_main", "twin_header", "third_vessel"]);
        assert_eq!(sheet.book().options, 3);
        let rules: Vec<_> = sheet.book().rules.iter().map(|r| (r.fitted, r.left_out)).collect();
        assert_eq!(rules, [(3, 4), (0, 1), (0, 0)]);
        assert_eq!(sheet.order(), Order { wanted: 2, unwanted: 5, standard: 6 });
    }

    #[test]
    fn each_demand_has_its_place() {
        let mut sheet = Sheet::of("b", "options: a b\n\na | b\nstandard: a b\n").unwrap();
        sheet.read("o", "# an order\nwant: b\nwithout: a\n").unwrap();
        let places: Vec<_> = sheet.demands.iter().map(|(_, place)| place.to_string()).collect();
        assert_eq!(places, ["b: line 3", "b: line 4", "b: line 4", "o: line 2", "o: line 3"]);
        let kept: Vec<_> = sheet.kept().copied().collect();
        let rule = Demand::Rule(Rule { fitted: 3, left_out: 0 });
        let [first, second] = [Demand::Standard(1), Demand::Standard(2)];
        assert_eq!(kept, [rule, first, second, Demand::Want(2), Demand::Without(1)]);
    }

    #[test]
    fn a_standard_line_may_stand_in_the_order_and_name_what_is_wished_later() {
        let mut sheet = Sheet::of("b", "options: a b c\nstandard: a\nb\n").unwrap();
        sheet.read("o", "without: a b\nstandard: c\nstandard: b\nwant: c\n").unwrap();
        assert_eq!(sheet.order(), Order { wanted: 4, unwanted: 3, standard: 7 });
    }

    #[test]
    fn one_of_several_orders_has_standard_options_and_wishes_alone() {
        let book = Sheet::of("b", "options: a b c\nstandard: a\n!a | !b\nwant: c\n").unwrap();
        let read = |text: &str| {
            let mut sheet = book.clone();
            sheet.read_order("o", text).map(|()| sheet).map_err(|mistake| mistake.to_string())
        };
        let sheet = read("# a buyer\n\nwithout: a\nstandard: b # too\n").unwrap();
        assert_eq!(sheet.order(), Order { wanted: 4, unwanted: 1, standard: 3 });
        assert_eq!((sheet.book(), read("").unwrap()), (book.book(), book.clone()));
        let shared = "expected it in the book, which all orders share";
        let told = |text: &str| read(text).unwrap_err();
        assert_eq!(
            told("\noptions: d"),
            format!("o: line 2: `options:` stands in an order: {shared}")
        );
        let rule = format!("o: line 2: a rule stands in an order: {shared}");
        assert_eq!([told("want: b\na | b"), told("want: b\nfalse")], [rule.clone(), rule]);
        let twice = "o: line 1: `c` stands twice in the order: expected it once";
        assert_eq!(told("want: c"), twice);
        assert!(told("need: c").starts_with("o: line 1: `need:` is unknown"));
    }

    #[test]
    fn a_standard_option_that_is_wished_is_no_demand_of_the_completed_order() {
        let text = "options: a b c\nstandard: a b c\na | b\nwant: a\nwithout: b\n";
        let sheet = Sheet::of("b", text).unwrap();
        let completed: Vec<_> =
            sheet.completed_demands().iter().map(|(demand, _)| *demand).collect();
        let rule = Demand::Rule(Rule { fitted: 3, left_out: 0 });
        assert_eq!(completed, [Demand::Standard(4), rule, Demand::Want(1), Demand::Without(2)]);
        assert_eq!(order(&completed).completed(), sheet.order().completed());
    }

    #[test]
    fn each_mistake_has_its_place_and_what_was_expected() {
        let after = |line: &str| mistake(&format!("options: a b\n{line}"));
        let due = [
            ("a | c", "no option is named `c`: expected a name of an `options:` line"),
            ("want: c", "no option is named `c`: expected a name of an `options:` line"),
            (
                "a | | b",
                "an entry names no option: expected an option, or `!` and an option, on each side \
                 of a `|`",
            ),
            (
                "a | !",
                "an entry names no option: expected an option, or `!` and an option, on each side \
                 of a `|`",
            ),
            ("a | a", "`a` stands twice: expected each option once in a rule"),
            ("!a | !a", "`a` stands twice: expected each option once in a rule"),
            ("a | !a", "`a` stands both with and without `!`: expected each option once in a rule"),
            ("want: a a", "`a` stands twice in the order: expected it once"),
            ("standard: c", "no option is named `c`: expected a name of an `options:` line"),
            ("standard: a b a", "`a` stands twice as standard: expected it once"),
            (
                "need: a",
                "`need:` is unknown: expected `options:`, `standard:`, `want:`, `without:` or a \
                 rule",
            ),
            ("options: a", "option `a` is named twice: expected each name once"),
            (
                "a b",
                "`a b` is no option's name: expected letters, digits and underscores, with no \
                 digit first",
            ),
            (
                "options: 2nd",
                "`2nd` is no option's name: expected letters, digits and underscores, with no \
                 digit first",
            ),
            (
                "options: false",
                "`false` is the empty rule and no option: expected it alone on its line",
            ),
            ("a | false", "`false` is the empty rule and no option: expected it alone on its line"),
        ];
        for (line, what) in due {
            assert_eq!(after(line), format!("b: line 2: {what}"), "{line}");
        }
    }

    #[test]
    fn each_mistake_that_takes_two_lines_stands_at_the_second() {
        let after = |lines: &str| mistake(&format!("options: a b\n{lines}"));
        let both = "b: line 3: `a` is both wanted and unwanted: expected one of them";
        assert_eq!(after("want: a\nwithout: a"), both);
        assert_eq!(after("without: a\nwant: a"), both);
        let twice = "b: line 3: `a` stands twice in the order: expected it once";
        assert_eq!(after("without: a\nwithout: a"), twice);
        let twice = "b: line 3: `a` stands twice as standard: expected it once";
        assert_eq!(after("standard: a\nstandard: a"), twice);
        let late = "b: line 3: `options:` stands after a rule, a standard option or a wish: \
                    expected all options before them";
        assert_eq!(after("a\noptions: c"), late);
        assert_eq!(after("standard: a\noptions: c"), late);
        assert_eq!(after("want: a\noptions: c"), late);
        let early = "b: line 2: `a` is not named yet: expected an `options:` line before it";
        assert_eq!(mistake("\na | b"), early);
        assert_eq!(mistake("\nstandard: a"), early);
    }

    #[test]
    fn the_limits_are_kept() {
        let names = |count| format!("options: {}\n", numbered_names(count).join(" "));
        assert_eq!(Sheet::of("b", &names(64)).unwrap().book().options, 64);
        assert_eq!(mistake(&names(65)), "b: line 1: `x65` is option 65: expected at most 64");
        let rules = |count| format!("options: a\n{}", "a\n".repeat(count));
        assert_eq!(Sheet::of("b", &rules(1024)).unwrap().book().rules.len(), 1024);
        let over = "b: line 1026: this is rule 1025: expected at most 1024";
        assert_eq!(mistake(&rules(1025)), over);
    }
}
