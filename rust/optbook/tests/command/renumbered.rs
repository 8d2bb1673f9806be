//! What the verb `renumber` keeps, on the plant and on generated books and orders: what each choice of options
//! keeps, the way back, and through the proved library the verdict.

use crate::renumber::sheet;
use crate::run::{file, optbook, Ended, CAN, PLANT};
use optbook::sheet::Sheet;
use optbook::{option, Order};

const CANNOT: &str = "examples/plant_cannot.order";
const NAMES: [&str; 6] = ["a", "b", "c", "d", "e", "f"];
const CASES: u64 = 240;

/// A small book and an order, and how they are to be renumbered. Options have their old numbers, from 0.
struct Case {
    book: String,
    order: String,
    /// The reversed options, as a set.
    reversed: u64,
    /// What each option is called in what is printed.
    called: Vec<String>,
    /// The options in the new sequence, and how many of them are listed by name.
    sequence: Vec<usize>,
    listed: usize,
}

/// The case with this number. It has 0 to 6 options, of which half are reversed, a third are standard, and a
/// quarter have a wish, in the book or in the order; up to 25 rules of 2 or 3 entries, and now and then one of
/// none; and as names of the reversed options others, or in every fourth case the same ones exchanged.
fn case(number: u64) -> Case {
    let mut state = number;
    let mut next = |below: usize| {
        state = state.wrapping_mul(6364136223846793005).wrapping_add(1442695040888963407);
        (state >> 33) as usize % below
    };
    let options = (number as usize % 10).min(6);
    let mut book = format!("options: {}\n", NAMES[..options].join(" "));
    let mut order = String::new();
    for name in &NAMES[..options] {
        let wish = ["want", "without", "", "", "", "", "", ""][next(8)];
        if !wish.is_empty() {
            let text = if next(4) == 0 { &mut book } else { &mut order };
            *text += &format!("{wish}: {name}\n");
        }
    }
    for _ in 0..next(2 + 4 * options) {
        let length = match next(100) {
            0 => 0,
            draw => options.min(2 + draw % 2),
        };
        let start = next(6);
        let entry = |index| {
            let sign = ["", "!"][next(2)];
            format!("{sign}{}", NAMES[(start + index) % options])
        };
        let entries: Vec<String> = (0..length).map(entry).collect();
        let rule = if length == 0 { "false".to_string() } else { entries.join(" | ") };
        book += &format!("{rule}\n");
    }
    for name in &NAMES[..options] {
        if next(3) == 0 {
            book += &format!("standard: {name}\n");
        }
    }

    let reversed: Vec<usize> = (0..options).filter(|_| next(2) == 0).collect();
    let mut called: Vec<String> = NAMES[..options].iter().map(ToString::to_string).collect();
    let exchanged = number % 4 == 1 && reversed.len() > 1;
    for (index, &option) in reversed.iter().enumerate() {
        called[option] = match exchanged {
            true => NAMES[reversed[(index + 1) % reversed.len()]].to_string(),
            false => format!("no_{}", NAMES[option]),
        };
    }
    let mut sequence: Vec<usize> = (0..options).collect();
    for last in (1..options).rev() {
        sequence.swap(last, next(last + 1));
    }
    let listed = next(options + 1);
    sequence[listed..].sort();
    let reversed = reversed.iter().fold(0, |set, &index| set | option(index));
    Case { book, order, reversed, called, sequence, listed }
}

impl Case {
    /// Book and order as they are read.
    fn read(&self) -> Sheet {
        Sheet::of("read", &format!("{}{}", self.book, self.order)).unwrap()
    }

    /// The names in the new sequence.
    fn names(&self) -> Vec<&str> {
        self.sequence.iter().map(|&option| self.called[option].as_str()).collect()
    }

    /// The pairs of the reversal: there, or back.
    fn pairs(&self, back: bool) -> Vec<String> {
        let names = NAMES.iter().zip(&self.called).enumerate();
        let reversed = names.filter(|(index, _)| self.reversed & option(*index) != 0);
        let pair = |(_, (old, new)): (usize, (&&str, &String))| match back {
            true => format!("{new}={old}"),
            false => format!("{old}={new}"),
        };
        reversed.map(pair).collect()
    }

    /// What is printed of book and order, which is a file of this name.
    fn renumbered(&self, name: &str) -> Ended {
        let order = file(name, &self.order);
        let names = [&self.names()[..self.listed], &["--order", &order]].concat();
        renumber(&self.book, &names, &self.pairs(false))
    }

    /// A set of options under the new numbers.
    fn moved(&self, set: u64) -> u64 {
        let moved = |(new, &old): (usize, &usize)| (set >> old & 1) << new;
        self.sequence.iter().enumerate().map(moved).sum()
    }
}

/// Renumbers a text, with these words and pairs.
fn renumber(text: &str, words: &[&str], pairs: &[String]) -> Ended {
    let pairs: Vec<&str> = pairs.iter().flat_map(|pair| ["--reverse", pair]).collect();
    optbook(&[&["renumber", "-"], words, &pairs].concat(), text.as_bytes())
}

/// Whether a choice keeps each rule, and then the completed order.
fn kept(sheet: &Sheet, choice: u64) -> Vec<bool> {
    let Order { wanted, unwanted, .. } = sheet.order().completed();
    let order = wanted & !choice == 0 && unwanted & choice == 0;
    let rules = sheet.book().rules;
    rules.iter().map(|rule| rule.is_kept_by(choice)).chain([order]).collect()
}

/// Rule by rule, by trying all choices. The image of a choice fits each option at its new number, or leaves it
/// out there, where it is reversed the other way round.
#[test]
fn a_choice_keeps_what_was_read_exactly_if_its_image_keeps_what_is_printed() {
    let mut seen = [0; 4];
    for number in 0..CASES {
        let case = case(number);
        let ended = case.renumbered(&format!("renumber_choices_{number}.order"));
        let (before, after) = (case.read(), sheet(&ended));
        assert_eq!(after.names, case.names(), "{}", ended.text());
        for choice in 0..1 << before.names.len() {
            let image = case.moved(choice ^ case.reversed);
            let due = kept(&before, choice);
            assert_eq!(kept(&after, image), due, "{number}: {}", ended.text());
            seen[usize::from(due.iter().all(|&kept| kept))] += 1;
        }
        let Order { wanted, unwanted, standard } = before.order();
        let due = case.moved(standard & !case.reversed);
        assert_eq!(after.order().standard, due, "{number}: {}", ended.text());
        let reversed = standard & case.reversed;
        seen[2] += u32::from(reversed & (wanted | unwanted) != 0);
        seen[3] += u32::from(reversed & !(wanted | unwanted) != 0);
    }
    // choices that do not keep all, and that do; books with a reversed option that is standard, with a wish
    // for it and without
    assert!(seen.iter().all(|&seen| seen >= 20), "{seen:?}");
}

#[test]
fn renumbered_back_a_book_and_its_completed_order_are_what_was_read() {
    for number in 0..CASES {
        let case = case(number);
        let ended = case.renumbered(&format!("renumber_back_{number}.order"));
        let names = &NAMES[..case.called.len()];
        let back = sheet(&renumber(ended.text(), names, &case.pairs(true)));
        let due = case.read();
        assert_eq!((&back.names, back.book()), (&due.names, due.book()), "{}", ended.text());
        assert_eq!(back.order().completed(), due.order().completed(), "{}", ended.text());
    }
}

/// What DIMACS has of it are the names, the rules and the completed order.
#[test]
fn renumbered_back_the_plant_is_what_it_was() {
    let names = "drum windrows tunnel ring_main twin_header small_blower large_blower biofilter \
                 scrubber leachate_tank roof screen";
    let names: Vec<&str> = names.split(' ').collect();
    let reversed = [("scrubber", "dry"), ("leachate_tank", "roof"), ("roof", "leachate_tank")];
    for order in [CAN, CANNOT] {
        let [there, back] = [false, true].map(|back| {
            let pair = |(old, new): (&str, &str)| match back {
                true => format!("{new}={old}"),
                false => format!("{old}={new}"),
            };
            reversed.map(pair)
        });
        let mut words = vec!["renumber", PLANT, "screen", "dry", "roof", "--order", order];
        words.extend(there.iter().flat_map(|pair| ["--reverse", pair]));
        let anew = optbook(&words, b"");
        let due = optbook(&["dimacs", PLANT, order], b"").printed;
        assert_ne!(optbook(&["dimacs", "-"], &anew.printed).printed, due);
        let ended = renumber(anew.text(), &names, &back);
        assert_eq!(sheet(&ended).names, names);
        assert_eq!(optbook(&["dimacs", "-"], &ended.printed).printed, due, "{}", ended.text());
    }
}

#[test]
fn without_an_order_it_is_the_same_where_no_reversed_option_is_to_be_completed() {
    let mut seen = [0; 2];
    for number in 0..CASES {
        let case = case(number);
        let text = format!("{}{}", case.book, case.order);
        let alone = renumber(&text, &case.names()[..case.listed], &case.pairs(false));
        let Order { wanted, unwanted, standard } = case.read().order();
        let is_complete = case.reversed & standard & !(wanted | unwanted) == 0;
        seen[usize::from(is_complete)] += 1;
        if is_complete {
            let ended = case.renumbered(&format!("renumber_alone_{number}.order"));
            let [alone, due] = [alone, ended].map(|ended| sheet(&ended));
            assert_eq!((&alone.names, alone.book()), (&due.names, due.book()));
            assert_eq!(alone.order(), due.order());
        } else {
            assert_eq!((alone.text(), alone.status), ("", 65));
            assert!(alone.said.contains("` is standard, and "), "{}", alone.said);
        }
    }
    assert!(seen.iter().all(|&seen| seen >= 20), "{seen:?}");
}

/// The verdict and the counts of a check.
#[cfg(feature = "proved")]
fn checked(words: &[&str], text: &[u8]) -> (i32, String) {
    let ended = optbook(&[&["check"], words].concat(), text);
    assert!([0, 1].contains(&ended.status), "{}", ended.text());
    (ended.status, ended.text().lines().nth(1).unwrap().to_string())
}

#[cfg(feature = "proved")]
#[test]
fn a_check_of_what_is_printed_has_the_verdict_on_what_was_read() {
    let mut seen = [0; 3];
    for number in 0..CASES {
        let case = case(number);
        let name = format!("renumber_checked_{number}.order");
        let ended = case.renumbered(&name);
        let (before, counts) = checked(&["-", &file(&name, &case.order)], case.book.as_bytes());
        let (after, counts_after) = checked(&["-"], &ended.printed);
        assert_eq!(after, before, "{number}: {}", ended.text());
        seen[before as usize] += 1;
        seen[2] += u32::from(counts != counts_after);
    }
    // can be built, cannot, and other counts than before
    assert!(seen.iter().all(|&seen| seen >= 20), "{seen:?}");
}

#[cfg(feature = "proved")]
#[test]
fn the_plant_has_one_verdict_however_it_is_renumbered() {
    let ways = [
        &["roof", "dry", "--reverse", "scrubber=dry"][..],
        &["screen", "roof", "leachate_tank", "dry", "biofilter", "--reverse", "scrubber=dry"],
        &["--reverse", "leachate_tank=dry_ground", "--reverse", "drum=no_drum"],
        &["tunnel", "--reverse", "roof=screen", "--reverse", "screen=roof"],
        &["large_blower", "twin_header"],
    ];
    for (order, status) in [(CAN, 0), (CANNOT, 1)] {
        assert_eq!(checked(&[PLANT, order], b"").0, status);
        for way in ways {
            let ended = optbook(&[&["renumber", PLANT, "--order", order], way].concat(), b"");
            assert_eq!(checked(&["-"], &ended.printed).0, status, "{}", ended.text());
        }
    }
}

/// One choice keeps the book: a alone. A check of it derives a rule; with b before a, or with a reversed, it does
/// not.
#[cfg(feature = "proved")]
#[test]
fn counts_derived_rules_and_records_may_differ() {
    let text = "options: a b\na | !b\na | b\n!a | !b\n";
    let can = "can be built: some choice of options keeps every rule and wish\n";
    let check = |text: &str| optbook(&["check", "-"], text.as_bytes()).text().replace(can, "can\n");
    let due = "can\nbranchings 2, derived rules 1, records 1\nderived rule: a\n\
               record: fitted a; left out (none); struck b\n";
    assert_eq!(check(text), due);
    let due = "can\nbranchings 1, derived rules 0, records 1\n\
               record: fitted (none); left out b; struck a\n";
    assert_eq!(check(renumber(text, &["b"], &[]).text()), due);
    let due = "can\nbranchings 1, derived rules 0, records 1\n\
               record: fitted (none); left out x; struck b\n";
    assert_eq!(check(renumber(text, &[], &["a=x".to_string()]).text()), due);
}
