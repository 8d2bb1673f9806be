//! An order with open options, every setting of which is tried.

use super::{of_port, Check};
use crate::fields::{numbers, order, places, values};
use crate::hex::{bytes, hex};
use optbook::bytes::input_bytes;
use optbook::{option, Order, OPTIONS};
use port::{Outcome, Places, Tables, Tried, Undecided, Verdict};

/// What the port's tables hold before it is asked.
const RUBBISH: u64 = 0x5a5a_a5a5_5a5a_a5a5;

/// An order with open options: the book's bytes, the order, the open options, the lengths of the lent
/// tables and the allowance of each setting.
#[derive(Clone, Debug)]
pub struct Open {
    pub book: Vec<u8>,
    pub order: Order,
    pub open: u64,
    pub places: Places,
    pub allowance: u32,
}

impl Open {
    /// The question of these fields of a case.
    pub fn read(fields: &[&str]) -> Result<Open, String> {
        let [book, allowance, tables, words, open] =
            values(["book", "allowance", "tables", "order", "undecided"], fields)?;
        let ([allowance], [open]) = (numbers(allowance)?, numbers(open)?);
        let (book, order, places) = (bytes(book)?, order(words)?, places(tables)?);
        Ok(Open { book, order, open, places, allowance })
    }

    /// What the port tried, or the number of the refusal. Its tables must hold what the last setting
    /// wrote, and zeros after it; where it is refused, what they held.
    pub fn port_tried(&self) -> Result<Tried, u32> {
        let rubbish = |length| vec![RUBBISH; length];
        let (mut derived, mut records) =
            (self.places.derived.map(rubbish), self.places.records.map(rubbish));
        let Open { book, order, open, allowance, .. } = self;
        let (order, open, allowance) = (of_port(*order), *open, *allowance);
        let lent = Tables {
            derived: derived.each_mut().map(Vec::as_mut_slice),
            records: records.each_mut().map(Vec::as_mut_slice),
        };
        let tried = port::undecided(&Undecided { book, order, open, allowance }, lent);
        let due = match &tried {
            Ok(tried) => zeroed(&self.places, &tried.last),
            Err(_) => (self.places.derived.map(rubbish), self.places.records.map(rubbish)),
        };
        assert!((derived, records) == due, "the port's tables hold something else");
        tried
    }

    /// The settings in ascending order: with each open option, lowest first, come those before, and
    /// then the same with it.
    pub fn settings(&self) -> Vec<u64> {
        let mut settings = vec![0];
        for option in (0..OPTIONS).map(option).filter(|option| self.open & option != 0) {
            let with: Vec<u64> = settings.iter().map(|setting| setting | option).collect();
            settings.extend(with);
        }
        settings
    }

    /// A setting singly, with tables of the same lengths.
    pub fn singly(&self, setting: u64) -> Check {
        let Open { book, order, open, places, allowance } = self;
        let input = input_bytes(order.with_setting(*open, setting), book);
        Check { input, places: *places, allowance: *allowance }
    }

    /// The question as the lines of a case.
    pub fn told(&self) -> String {
        let Places { derived: [pos, neg], records: [decided, trues, redundant] } = self.places;
        let [wanted, unwanted, standard] = self.order.words();
        format!(
            "open\nbook {}\nallowance {}\ntables {pos} {neg} {decided} {trues} {redundant}\n\
             order {wanted} {unwanted} {standard}\nundecided {}",
            hex(&self.book),
            self.allowance,
            self.open
        )
    }
}

/// Two tables for derived rules and three for records.
type Full = ([Vec<u64>; 2], [Vec<u64>; 3]);

/// Tables of these lengths with an outcome in their first places, and zeros after it.
fn zeroed(places: &Places, outcome: &Outcome) -> Full {
    let filled = |length: usize, words: Vec<u64>| {
        let mut table = words;
        table.resize(length, 0);
        table
    };
    let Outcome { derived, records, .. } = outcome;
    let ([pos, neg], [decided, trues, redundant]) = (places.derived, places.records);
    (
        [
            filled(pos, derived.iter().map(|rule| rule.fitted).collect()),
            filled(neg, derived.iter().map(|rule| rule.left_out).collect()),
        ],
        [
            filled(decided, records.iter().map(|record| record.decisions.decided).collect()),
            filled(trues, records.iter().map(|record| record.decisions.fitted).collect()),
            filled(redundant, records.iter().map(|record| record.struck).collect()),
        ],
    )
}

/// What was tried as it is printed, or the refusal.
pub fn tried_text(tried: &Result<Tried, u32>) -> String {
    match tried {
        Ok(Tried { verdict, setting, last }) => {
            format!("{}\n{last}", verdict_name(*verdict, *setting))
        }
        Err(number) => Outcome::refused(*number).to_string(),
    }
}

/// A verdict by its word; a stop has its setting.
pub fn verdict_name(verdict: Verdict, setting: u64) -> String {
    match verdict {
        Verdict::Always => "always".to_string(),
        Verdict::Sometimes => "sometimes".to_string(),
        Verdict::Never => "never".to_string(),
        Verdict::Stopped => format!("stopped {setting}"),
    }
}

#[cfg(test)]
mod tests {
    use super::*;
    use crate::question::Question;

    const LINES: [&str; 6] = [
        "open",
        "book 070000",
        "allowance 9",
        "tables 11 10 64 65 66",
        "order 16 32 5",
        "undecided 13",
    ];

    fn read(lines: &[&str]) -> Result<Open, String> {
        match Question::read(lines)? {
            Question::Open(open) => Ok(open),
            question => panic!("{question:?} has no open options"),
        }
    }

    #[test]
    fn a_question_is_read_from_its_fields_and_told_with_them() {
        let open = read(&LINES).unwrap();
        assert_eq!((open.book.as_slice(), open.allowance, open.open), (&[7, 0, 0][..], 9, 13));
        assert_eq!(open.order.words(), [16, 32, 5]);
        let Places { derived, records } = open.places;
        assert_eq!((derived, records), ([11, 10], [64, 65, 66]));
        assert_eq!(open.told(), LINES.join("\n"));
        let told = read(&LINES[..5]).unwrap_err();
        let due = "the lines book, allowance, tables, order, undecided are due, not 4 lines";
        assert_eq!(told, due);
    }

    #[test]
    fn settings_ascend_and_each_is_asked_with_the_same_limits() {
        let open = read(&LINES).unwrap();
        assert_eq!(open.settings(), [0, 1, 4, 5, 8, 9, 12, 13]);
        assert_eq!(Open { open: 0, ..open.clone() }.settings(), [0]);
        let high = Open { open: 3 << 62, ..open.clone() };
        assert_eq!(high.settings(), [0, 1 << 62, 1 << 63, 3 << 62]);
        let check = open.singly(9);
        assert_eq!(check.parts().unwrap().0.words(), [25, 36, 0]);
        assert_eq!((check.places.derived, check.allowance), ([11, 10], 9));
    }

    #[test]
    fn what_was_tried_is_printed_before_the_last_outcome() {
        let last = Outcome::refused(0);
        let tried = |verdict| Ok(Tried { verdict, setting: 6, last: last.clone() });
        assert_eq!(tried_text(&tried(Verdict::Always)), format!("always\n{last}"));
        assert_eq!(tried_text(&tried(Verdict::Sometimes)), format!("sometimes\n{last}"));
        assert_eq!(tried_text(&tried(Verdict::Never)), format!("never\n{last}"));
        assert_eq!(tried_text(&tried(Verdict::Stopped)), format!("stopped 6\n{last}"));
        assert_eq!(tried_text(&Err(19)), "refused 19 0 0 0\n");
    }

    /// The book of option 1 and the rule "not 1": its last setting derives the empty rule.
    #[test]
    fn the_tables_that_are_due_have_zeros_after_the_outcome() {
        let rule = format!("book 010100{}01{}", "00".repeat(8), "00".repeat(7));
        let lines = ["open", &rule, "allowance 1", "tables 2 2 64 64 65", "order 0 0 0"];
        let open = read(&[&lines[..], &["undecided 1"]].concat()).unwrap();
        let tried = open.port_tried();
        assert_eq!(tried_text(&tried), "sometimes\ncannot 0 1 1 1\nd 0 0\nr 0 0 1\n");
        let (derived, [decided, _, redundant]) = zeroed(&open.places, &tried.unwrap().last);
        assert_eq!(derived, [vec![0; 2], vec![0; 2]]);
        assert_eq!((decided.len(), redundant.len()), (64, 65));
        assert_eq!((redundant[0], redundant[1..].iter().sum::<u64>()), (1, 0));
    }
}
