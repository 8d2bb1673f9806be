//! Options that the buyer has not decided: up to 10 are open, and each of them may be fitted or left
//! out. All settings of them are tried as wishes, in ascending order as words.

use crate::outcome::{Ending, Outcome};
use crate::request::{book_with_order, check, members, Order, Places, Request};
use crate::words::first;

/// So many options may be open.
const OPEN: u32 = 10;

/// A book's bytes, an order, its open options and the branching allowance of each setting.
#[derive(Clone, Copy, Debug)]
pub struct Undecided<'a> {
    pub book: &'a [u8],
    pub order: Order,
    pub open: u64,
    pub allowance: u32,
}

/// The lent tables: the fitted and the left-out words of derived rules, and the decided, fitted and
/// struck options of records.
pub struct Tables<'a> {
    pub derived: [&'a mut [u64]; 2],
    pub records: [&'a mut [u64]; 3],
}

/// All, some but not all, or none of the settings can be built; or one of them stopped.
#[derive(Clone, Copy, Debug, PartialEq, Eq)]
pub enum Verdict {
    Always,
    Sometimes,
    Never,
    Stopped,
}

/// What the settings give together, the last one that was tried, and its outcome.
#[derive(Clone, Debug, PartialEq, Eq)]
pub struct Tried {
    pub verdict: Verdict,
    pub setting: u64,
    pub last: Outcome,
}

/// Tries all settings of the open options, up to the first that stops. The tables are set to zero
/// before each, and so hold what the last one wrote, and zeros. A refusal leaves them as they are.
pub fn undecided(question: &Undecided, mut tables: Tables) -> Result<Tried, u32> {
    let Undecided { book, order, open, allowance } = *question;
    let places = tables.places();
    accept(question, places)?;
    let mut verdicts = Vec::new();
    loop {
        let setting = spread(verdicts.len(), open);
        let order = with_wishes(order, open, setting);
        tables.clear();
        let last = check(&Request { book, order, places, allowance });
        tables.write(&last);
        match last.ending {
            Ending::Verdict(can) => verdicts.push(can),
            Ending::Stopped(_) => return Ok(Tried { verdict: Verdict::Stopped, setting, last }),
            Ending::Refused(number) => return Err(number),
        }
        if setting == open {
            return Ok(Tried { verdict: together(&verdicts), setting, last });
        }
    }
}

/// What the verdicts on all settings give together.
fn together(verdicts: &[bool]) -> Verdict {
    match (verdicts.contains(&true), verdicts.contains(&false)) {
        (true, false) => Verdict::Always,
        (true, true) => Verdict::Sometimes,
        (false, _) => Verdict::Never,
    }
}

/// The refusals: those of the book and of the order as it is given, then 19 and 20, and then that of
/// the tables.
fn accept(question: &Undecided, places: Places) -> Result<(), u32> {
    let Undecided { book, order, open, .. } = *question;
    let book = book_with_order(book, order)?;
    if open.count_ones() > OPEN || open & !first(book.n) != 0 {
        return Err(19);
    }
    if open & (order.wanted | order.unwanted) != 0 {
        return Err(20);
    }
    match places.are_permitted() {
        true => Ok(()),
        false => Err(9),
    }
}

/// The setting with this number, counted from 0: the number's bits, lowest first, on the options of a
/// set, lowest first. A greater number is a greater setting.
fn spread(number: usize, open: u64) -> u64 {
    let bits = members(open).into_iter().enumerate();
    bits.filter(|(bit, _)| number >> bit & 1 == 1).map(|(_, option)| option).sum()
}

/// The order with the wishes of a setting. Open options are not taken as wanted for being standard.
fn with_wishes(order: Order, open: u64, setting: u64) -> Order {
    let mut order = order;
    for option in members(open) {
        order.standard &= !option;
        match setting & option {
            0 => order.unwanted |= option,
            _ => order.wanted |= option,
        }
    }
    order
}

impl Tables<'_> {
    fn places(&self) -> Places {
        Places {
            derived: self.derived.each_ref().map(|table| table.len()),
            records: self.records.each_ref().map(|table| table.len()),
        }
    }

    /// Sets all tables to zero throughout.
    fn clear(&mut self) {
        self.derived.iter_mut().chain(&mut self.records).for_each(|table| table.fill(0));
    }

    fn write(&mut self, outcome: &Outcome) {
        let [fitted, left_out] = &mut self.derived;
        for (place, rule) in outcome.derived.iter().enumerate() {
            (fitted[place], left_out[place]) = (rule.fitted, rule.left_out);
        }
        let [decided, fitted, struck] = &mut self.records;
        for (place, record) in outcome.records.iter().enumerate() {
            (decided[place], fitted[place]) = (record.decisions.decided, record.decisions.fitted);
            struck[place] = record.struck;
        }
    }
}

#[cfg(test)]
mod tests {
    use super::*;

    const RUBBISH: u64 = 0xa5a5_5a5a_a5a5_5a5a;
    const AMPLE: u32 = 100;
    const PLACES: [usize; 5] = [4, 4, 64, 66, 70];
    const NONE: [u64; 3] = [0; 3];

    /// The book Q: options 2 and 3 exclude each other, and 2 stands for the 1 that needs 3.
    const Q: (u8, &[(u64, u64)]) = (3, &[(3, 0), (4, 1), (0, 6)]);
    /// n 1, the rule "not 1": with 1 wanted it takes one branching and one derived rule, and else
    /// neither.
    const NOT_ONE: (u8, &[(u64, u64)]) = (1, &[(0, 1)]);

    fn bytes((n, rules): (u8, &[(u64, u64)])) -> Vec<u8> {
        let mut out = vec![n, rules.len() as u8, 0];
        rules.iter().for_each(|rule| out.extend(rule.0.to_le_bytes()));
        rules.iter().for_each(|rule| out.extend(rule.1.to_le_bytes()));
        out
    }

    fn rubbish(lengths: [usize; 5]) -> [Vec<u64>; 5] {
        lengths.map(|length| vec![RUBBISH; length])
    }

    /// What is answered with tables of these lengths, and the tables after it.
    fn asked(
        book: &[u8],
        words: [u64; 3],
        open: u64,
        lengths: [usize; 5],
        allowance: u32,
    ) -> (Result<Tried, u32>, [Vec<u64>; 5]) {
        let [wanted, unwanted, standard] = words;
        let order = Order { wanted, unwanted, standard };
        let mut tables = rubbish(lengths);
        let [pos, neg, decided, trues, redundant] = tables.each_mut().map(Vec::as_mut_slice);
        let lent = Tables { derived: [pos, neg], records: [decided, trues, redundant] };
        (undecided(&Undecided { book, order, open, allowance }, lent), tables)
    }

    /// The verdict, the last setting and the first line of its outcome.
    fn told(
        book: (u8, &[(u64, u64)]),
        words: [u64; 3],
        open: u64,
        allowance: u32,
    ) -> (Verdict, u64, String) {
        let tried = asked(&bytes(book), words, open, PLACES, allowance).0.unwrap();
        let first = tried.last.to_string().lines().next().unwrap().to_string();
        (tried.verdict, tried.setting, first)
    }

    #[test]
    fn settings_ascend_from_none_to_all_open_options() {
        let of = |open: u64| (0..1 << open.count_ones()).map(|i| spread(i, open)).collect();
        let settings: Vec<u64> = of(0b1_0110);
        assert_eq!(settings, [0, 0b10, 0b100, 0b110, 0b1_0000, 0b1_0010, 0b1_0100, 0b1_0110]);
        let settings: Vec<u64> = of(1 << 63 | 1);
        assert_eq!(settings, [0, 1, 1 << 63, 1 << 63 | 1]);
        let settings: Vec<u64> = of(0);
        assert_eq!(settings, [0]);
    }

    #[test]
    fn an_open_option_is_a_wish_and_not_standard() {
        let order = Order { wanted: 1, unwanted: 2, standard: 0b1_1111 };
        let of = with_wishes(order, 0b1100, 0b1000);
        assert_eq!((of.wanted, of.unwanted, of.standard), (0b1001, 0b0110, 0b1_0011));
    }

    /// With option 3 wanted and option 2 open, the last setting is the marked order 6 of Q.
    #[test]
    fn some_settings_can_be_built_and_the_last_one_stays_in_the_tables() {
        let (tried, tables) = asked(&bytes(Q), [4, 0, 0], 2, PLACES, AMPLE);
        let tried = tried.unwrap();
        assert_eq!((tried.verdict, tried.setting), (Verdict::Sometimes, 2));
        assert_eq!(tried.last.to_string(), "cannot 0 2 2 1\nd 0 2\nd 0 0\nr 0 0 7\n");
        let mut due = PLACES.map(|length| vec![0; length]);
        (due[1][0], due[4][0]) = (2, 7);
        assert_eq!(tables, due);
    }

    #[test]
    fn all_settings_or_none_can_be_built() {
        let can = |records: usize| format!("can 0 0 0 {records}");
        assert_eq!(told((1, &[]), NONE, 1, 0), (Verdict::Always, 1, can(1)));
        assert_eq!(told((64, &[]), NONE, 0x3ff << 54, 0), (Verdict::Always, 0x3ff << 54, can(64)));
        let cannot = "cannot 0 1 1 1".to_string();
        assert_eq!(told((1, &[(1, 0), (0, 1)]), NONE, 1, 1), (Verdict::Never, 1, cannot));
    }

    #[test]
    fn with_nothing_open_the_order_itself_is_tried() {
        let can = "can 0 1 0 2".to_string();
        assert_eq!(told(Q, [1, 0, 0], 0, 1), (Verdict::Always, 0, can));
        let cannot = "cannot 0 2 2 1".to_string();
        assert_eq!(told(Q, [6, 0, 0], 0, 2), (Verdict::Never, 0, cannot));
    }

    /// Setting 0 writes a record, and setting 1 stops before it writes one.
    #[test]
    fn the_first_stop_ends_it_and_nothing_of_earlier_settings_stays() {
        let (tried, tables) = asked(&bytes(NOT_ONE), NONE, 1, PLACES, 0);
        let tried = tried.unwrap();
        assert_eq!((tried.verdict, tried.setting), (Verdict::Stopped, 1));
        assert_eq!(tried.last.to_string(), "stopped 10 0 0 0\n");
        assert_eq!(tables, PLACES.map(|length| vec![0; length]));
        let (tried, _) = asked(&bytes(NOT_ONE), NONE, 1, [0, 0, 64, 64, 64], 1);
        let tried = tried.unwrap();
        assert_eq!((tried.verdict, tried.setting), (Verdict::Stopped, 1));
        assert_eq!(tried.last.to_string(), "stopped 11 1 0 0\n");
    }

    /// Two settings in turn need one branching each.
    #[test]
    fn each_setting_has_the_full_allowance() {
        let two: (u8, &[(u64, u64)]) = (2, &[(0, 1)]);
        let cannot = "cannot 0 1 1 1".to_string();
        assert_eq!(told(two, NONE, 3, 1), (Verdict::Sometimes, 3, cannot));
    }

    #[test]
    fn a_standard_option_that_is_open_may_be_left_out() {
        let cannot = "cannot 0 1 1 1".to_string();
        assert_eq!(told(NOT_ONE, [0, 0, 1], 0, 1), (Verdict::Never, 0, cannot.clone()));
        assert_eq!(told(NOT_ONE, [0, 0, 1], 1, 1), (Verdict::Sometimes, 1, cannot));
    }

    /// A book, the order's words, the open word and the lengths of the tables.
    type Asked<'a> = (&'a [u8], [u64; 3], u64, [usize; 5]);

    #[test]
    fn refusals_come_in_their_order_and_leave_the_tables() {
        let (few, most) = (bytes((3, &[])), bytes((64, &[])));
        let (good, bad) = ([0, 0, 64, 64, 64], [0, 1, 64, 64, 64]);
        let refused: [(Asked, u32); 12] = [
            ((&[3, 0], [8, 0, 0], 8, bad), 1),
            ((&few, [8, 8, 0], 8, bad), 7),
            ((&few, [1, 1, 8], 8, bad), 8),
            ((&few, [1, 0, 8], 9, bad), 12),
            ((&few, [1, 0, 0], 9, bad), 19),
            ((&few, [0, 0, 0], 8, good), 19),
            ((&most, [1, 0, 0], 0x7ff, bad), 19),
            ((&most, [0, 0, 0], 0x7ff << 53, good), 19),
            ((&few, [1, 0, 0], 3, bad), 20),
            ((&few, [0, 2, 0], 3, good), 20),
            ((&few, [0, 0, 0], 3, bad), 9),
            ((&few, [0, 0, 0], 0, [0, 0, 64, 63, 64]), 9),
        ];
        for ((book, words, open, lengths), number) in refused {
            let (tried, tables) = asked(book, words, open, lengths, AMPLE);
            assert_eq!((tried, tables), (Err(number), rubbish(lengths)));
        }
    }
}
