//! Tables to lend to the library, with rubbish at every place and more places after the lent ones,
//! so that it shows what a check has written and that it has written nothing else. For a morning each
//! table is cut into equal parts, and an order's part has its outcome. For open options the tables are
//! set to zero, and have the last setting's outcome. For sites each has tables of its own, and a
//! terminal's numbers are lent too. A page and a joint book are lent as bytes, a desk as its words, what comes of
//! turns as three words, and the cheapest plant as four.

pub mod cheapest;
pub mod desk;
pub mod join;
pub mod morning;
pub mod open;
pub mod page;
pub mod sites;
pub mod terminal;
pub mod turns;

use optcheck::{Answer, Kind, Tables};
use port::{Decisions, Ending, Outcome, Places, Record, Rule, CAN, CANNOT};

/// Places of each table after those that are lent: more than a derived table may have.
const BEYOND: usize = 2049;

/// The bits of a word that an answer's parts take up, from the lowest on. The five above them are 0.
const ANSWER_BITS: u32 = 59;

/// A table: its places, how many of them are lent, and the rubbish, another word at each place.
struct Table {
    places: Vec<u64>,
    lent: usize,
    rubbish: u64,
}

/// The five tables.
pub struct Lent {
    derived: [Table; 2],
    records: [Table; 3],
}

impl Table {
    fn new(lent: usize, rubbish: u64) -> Table {
        Table { places: (0..lent + BEYOND).map(|i| rubbish ^ i as u64).collect(), lent, rubbish }
    }

    fn lend(&mut self) -> &mut [u64] {
        &mut self.places[..self.lent]
    }

    /// The lent places are cut into as many equal parts as there are counts. The rubbish is still at
    /// every place but the first ones of each part, as many as its count says.
    fn keeps_all_but(&self, counts: &[usize]) -> Result<(), String> {
        let part = self.lent.checked_div(counts.len()).unwrap_or(0);
        if let Some(count) = counts.iter().find(|&&count| count > part) {
            return Err(format!("a count of {count} in a table of {part}"));
        }
        let after = |(index, &count): (usize, &usize)| index * part + count..(index + 1) * part;
        let uncounted = counts.iter().enumerate().map(after);
        let remainder = counts.len() * part..self.places.len();
        let is_changed = |&i: &usize| self.places[i] != self.rubbish ^ i as u64;
        match uncounted.chain([remainder]).flatten().find(is_changed) {
            Some(i) => Err(format!("place {i} was written, which is not counted")),
            None => Ok(()),
        }
    }

    /// The lent places are 0 from this one on, and the rubbish is still at every place after them.
    fn is_zero_from(&self, count: usize) -> Result<(), String> {
        if count > self.lent {
            return Err(format!("a count of {count} in a table of {}", self.lent));
        }
        match (count..self.lent).find(|&i| self.places[i] != 0) {
            Some(i) => Err(format!("place {i} is not 0, and it is not counted")),
            None => self.keeps_all_but(&[self.lent]),
        }
    }

    /// The place with this index in a part.
    fn of_part(&self, (part, parts): (usize, usize), index: usize) -> u64 {
        self.places[part * (self.lent / parts) + index]
    }
}

impl Lent {
    pub fn new(places: &Places, rubbish: u64) -> Lent {
        Lent {
            derived: places.derived.map(|length| Table::new(length, rubbish)),
            records: places.records.map(|length| Table::new(length, rubbish)),
        }
    }

    /// The tables as the library takes them.
    pub fn tables(&mut self) -> Tables<'_> {
        let [pos, neg] = self.derived.each_mut().map(Table::lend);
        let [decided, trues, redundant] = self.records.each_mut().map(Table::lend);
        Tables { pos, neg, decided, trues, redundant }
    }

    /// The outcome of an answer's word. It is an error if the word is no answer's, or if a place
    /// changed that is not counted.
    pub fn outcome(&self, word: u64) -> Result<Outcome, String> {
        let answer = answer(word)?;
        self.keep_all_but(&[answer])?;
        Ok(self.outcome_of_part(answer, (0, 1)))
    }

    /// The outcomes of answers' words, each in its own part of the tables, with the same errors.
    fn outcomes(&self, words: &[u64]) -> Result<Vec<Outcome>, String> {
        let answers = words.iter().copied().map(answer).collect::<Result<Vec<_>, _>>()?;
        self.keep_all_but(&answers)?;
        let outcome = |(part, &answer)| self.outcome_of_part(answer, (part, answers.len()));
        Ok(answers.iter().enumerate().map(outcome).collect())
    }

    /// The rubbish is still at every place that these answers do not count in their parts.
    fn keep_all_but(&self, answers: &[Answer]) -> Result<(), String> {
        let derived: Vec<usize> = answers.iter().map(|answer| answer.derived).collect();
        let records: Vec<usize> = answers.iter().map(|answer| answer.records).collect();
        for table in &self.derived {
            table.keeps_all_but(&derived)?;
        }
        for table in &self.records {
            table.keeps_all_but(&records)?;
        }
        Ok(())
    }

    /// All lent places that this answer does not count are 0.
    fn are_zero_after(&self, answer: Answer) -> Result<(), String> {
        self.derived.iter().try_for_each(|table| table.is_zero_from(answer.derived))?;
        self.records.iter().try_for_each(|table| table.is_zero_from(answer.records))
    }

    fn outcome_of_part(&self, answer: Answer, part: (usize, usize)) -> Outcome {
        let ending = match answer.kind {
            Kind::Can => CAN,
            Kind::Cannot => CANNOT,
            Kind::Refused => Ending::Refused(answer.number),
            Kind::Stopped => Ending::Stopped(answer.number),
        };
        Outcome {
            ending,
            branchings: answer.branchings,
            derived: (0..answer.derived).map(|i| self.rule(part, i)).collect(),
            records: (0..answer.records).map(|i| self.record(part, i)).collect(),
        }
    }

    fn rule(&self, part: (usize, usize), i: usize) -> Rule {
        let [fitted, left_out] = self.derived.each_ref().map(|table| table.of_part(part, i));
        Rule { fitted, left_out }
    }

    fn record(&self, part: (usize, usize), i: usize) -> Record {
        let [decided, fitted, struck] = self.records.each_ref().map(|table| table.of_part(part, i));
        Record { decisions: Decisions { decided, fitted }, struck }
    }
}

/// The answer in a word. It is an error if one of the five highest bits is not 0: no answer has it.
fn answer(word: u64) -> Result<Answer, String> {
    match word >> ANSWER_BITS {
        0 => Ok(Answer::of_word(word)),
        _ => Err(format!("the five highest bits of the answer {word:#x} are not 0")),
    }
}

#[cfg(test)]
mod tests {
    use super::*;

    pub const RUBBISH: u64 = 0xa5a5_5a5a_a5a5_5a5a;

    /// The word of `cannot` with 2 branchings and so many derived rules and records.
    pub fn cannot(derived: u64, records: u64) -> u64 {
        1 + (2 << 8) + (derived << 40) + (records << 52)
    }

    fn lent() -> Lent {
        Lent::new(&Places { derived: [2, 3], records: [64, 65, 66] }, RUBBISH)
    }

    #[test]
    fn the_counted_places_are_the_outcome() {
        let mut lent = lent();
        let Tables { pos, neg, decided, trues, redundant } = lent.tables();
        assert_eq!([pos.len(), neg.len()], [2, 3]);
        assert_eq!([decided.len(), trues.len(), redundant.len()], [64, 65, 66]);
        (pos[0], neg[0], decided[0], trues[0], redundant[0]) = (1, 2, 12, 4, 3);
        let printed = lent.outcome(cannot(1, 1)).map(|outcome| outcome.to_string());
        assert_eq!(printed, Ok("cannot 0 2 1 1\nd 1 2\nr 12 4 3\n".to_string()));
    }

    #[test]
    fn a_place_that_is_not_counted_is_named() {
        let mut lent = lent();
        lent.tables().redundant[65] = 0;
        let told = lent.outcome(cannot(0, 1)).unwrap_err();
        assert_eq!(told, "place 65 was written, which is not counted");
    }

    #[test]
    fn a_place_after_the_lent_ones_is_named() {
        let mut lent = lent();
        lent.derived[0].places[2] = 0;
        let told = lent.outcome(cannot(2, 0)).unwrap_err();
        assert_eq!(told, "place 2 was written, which is not counted");
    }

    #[test]
    fn a_count_stays_within_its_table() {
        let told = lent().outcome(cannot(3, 0)).unwrap_err();
        assert_eq!(told, "a count of 3 in a table of 2");
    }

    /// The bit below them is the highest of the count of records.
    #[test]
    fn the_five_highest_bits_of_a_word_are_0() {
        assert!(lent().outcome(cannot(0, 64)).is_ok());
        for bit in 59..64 {
            let word = cannot(0, 0) + (1 << bit);
            let due = format!("the five highest bits of the answer {word:#x} are not 0");
            assert_eq!(lent().outcome(word).unwrap_err(), due);
        }
    }
}
