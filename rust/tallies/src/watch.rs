//! The watcher: which decisions, struck options and rules should be in force after each change, and
//! whether the engine's tallies and its index are theirs.

use crate::blocks::{rule_at, Rules};
use crate::change::{Change, Seen};
use crate::in_force::InForce;
use port::Decisions;

/// The watcher of one run.
#[derive(Debug, Default)]
pub struct Watch {
    /// None before the start.
    in_force: Option<InForce>,
    /// Its own copy of the rules.
    rules: Rules,
    /// All options of the book.
    options: u64,
    pub seen: Seen,
}

impl Watch {
    /// The watcher of a run over these options.
    pub fn of(options: u64) -> Watch {
        Watch { options, ..Watch::default() }
    }

    /// A change was made; these are the table, if the change is lent it, the tallies and the number of
    /// rules after it. A difference is an error, in words.
    pub fn after(
        &mut self,
        change: Change,
        t: Option<&[u64]>,
        q: &[u64],
        rules: usize,
    ) -> Result<(), String> {
        let now = self.due_after(change, t, rules);
        let now = now.map_err(|what| format!("{change:?} does not fit: {what}"))?;
        self.in_force = Some(now);
        self.seen.changes[change.kind()] += 1;
        self.compare(now, t, q).map_err(|what| format!("after {change:?}, {what}"))
    }

    /// A point at which the engine goes by the tallies of these decisions, this struck set and so many
    /// rules.
    pub fn at_point(&mut self, at: Decisions, struck: u64, rules: usize) -> Result<(), String> {
        let now = self.in_force()?;
        let fits = now.is_at(at).and(now.has_struck(struck)).and(now.has(rules));
        self.seen.points += 1;
        fits.map_err(|what| format!("the point does not fit: {what}"))
    }

    /// The run has ended; these are the table, the tallies, the number of rules and, if it is known, the
    /// struck set at its end. Gives on how many second sides it ended.
    pub fn at_end(
        &mut self,
        t: &[u64],
        q: &[u64],
        rules: usize,
        struck: Option<u64>,
    ) -> Result<u32, String> {
        let now = self.in_force()?;
        let fits = now.has(rules).and(now.has_struck(struck.unwrap_or(now.struck)));
        fits.map_err(|what| format!("the end does not fit: {what}"))?;
        self.compare(now, Some(t), q).map_err(|what| format!("at the end, {what}"))?;
        Ok(now.second_sides.count_ones())
    }

    fn in_force(&self) -> Result<InForce, String> {
        self.in_force.ok_or("the run has not started".to_string())
    }

    /// What should be in force after a change, which must fit what was in force before it.
    fn due_after(
        &self,
        change: Change,
        t: Option<&[u64]>,
        rules: usize,
    ) -> Result<InForce, String> {
        if self.in_force.is_some() == (change == Change::Start) {
            return Err("a run starts once, before all other changes".to_string());
        }
        let now = self.in_force.unwrap_or_default();
        let mut due = now;
        match change {
            Change::Start => due.rules = rules,
            Change::Decide(option, fitted) => due.decisions = now.with(option, fitted)?,
            Change::Turn(option, fitted) => {
                due.decisions = now.without(option, fitted)?.with(option, !fitted);
                due.second_sides |= option;
            }
            Change::Withdraw(option, fitted) => {
                due.decisions = now.without(option, fitted)?;
                due.second_sides &= !option;
            }
            Change::Strike(option, answered) => {
                due.struck = now.with_struck(option)?;
                match self.rules.in_play_name(now.decisions, now.struck, option) {
                    true if !answered => return Err(format!("a rule in play names {option}")),
                    false if answered => return Err(format!("no rule in play names {option}")),
                    _ => {}
                }
            }
            Change::Restrike(struck) => {
                due.struck = self.options & !now.decisions.decided;
                if struck != due.struck {
                    return Err(format!("{} is undecided, not {struck}", due.struck));
                }
            }
            Change::Unstrike(before, after) => {
                now.has_struck(before)?;
                due.struck = after;
            }
            Change::Add(decisions, struck, rule) => {
                now.is_at(decisions)?;
                now.has_struck(struck)?;
                if let Some(other) = t.map(|t| rule_at(t, now.rules)).filter(|&at| at != rule) {
                    return Err(format!("the table has {other:?}"));
                }
                due.rules += 1;
            }
        }
        due.has(rules)?;
        match due.struck & due.decisions.decided {
            0 => Ok(due),
            both => Err(format!("{both} is decided, and struck")),
        }
    }

    /// The words of all rules, each counted anew, and all rows of the index.
    fn compare(&mut self, now: InForce, t: Option<&[u64]>, q: &[u64]) -> Result<(), String> {
        let InForce { decisions, struck, rules, .. } = now;
        for i in self.rules.count()..rules {
            self.rules.push(rule_at(t.ok_or("new rules come without the table")?, i));
        }
        t.map_or(Ok(()), |t| self.rules.are_in(t))?;
        let words = self.rules.compare(decisions, struck, q);
        let words = words.map_err(|what| format!("at {decisions:?} with {struck} struck: {what}"));
        self.seen.words += words?;
        Ok(())
    }
}

#[cfg(test)]
mod tests {
    use super::*;
    use crate::change::KINDS;
    use port::Rule;

    /// The rules "1 or 2" and "not 1 or 3", and after them "2 or not 3".
    const T: [u64; 6] = [3, 0, 4, 1, 2, 4];

    const ADDED: Rule = Rule { fitted: 2, left_out: 4 };

    /// For each of the three options the rules that name it.
    const NAMING: [u64; 3] = [0b011, 0b101, 0b110];

    /// The words of counts, and the rows of the rules in play, kept by no decision, and naming a
    /// struck option.
    type Words<'a> = (&'a [u64], [u64; 3]);

    /// Option 1 is decided as fitted, and option 2 struck, with the words after each change.
    const SO_FAR: [(Change, Words); 3] = [
        (Change::Start, (&[512, 512], [0b11, 0b11, 0])),
        (Change::Decide(1, true), (&[256 + 2, 256], [0b10, 0b10, 0])),
        (Change::Strike(2, false), STRUCK),
    ];

    const STRUCK: Words = (&[256 + 2, 256], [0b10, 0b10, 0b01]);

    /// Option 1 decided as left out, options 2 and 3 struck.
    const TURNED: Words = (&[256, 256 + 2, 512], [0, 0b101, 0b111]);

    /// Nothing is decided, and all options are struck.
    const ALL_STRUCK: Words = (&[512; 3], [0, 0b111, 0b111]);

    /// The block of these words.
    fn block((counts, rows): Words) -> [u64; 131] {
        let mut q = [u64::MAX; 131];
        q[..counts.len()].copy_from_slice(counts);
        q[64..].fill(0);
        q[64..67].copy_from_slice(&rows);
        for (row, naming) in q[67..].iter_mut().zip(NAMING) {
            *row = naming & ((1 << counts.len()) - 1);
        }
        q
    }

    fn at(decided: u64, fitted: u64) -> Decisions {
        Decisions { decided, fitted }
    }

    /// A watcher that was told of these changes.
    fn told(changes: &[(Change, Words)]) -> Result<Watch, String> {
        let mut watch = Watch::of(7);
        for (change, words) in changes {
            watch.after(*change, Some(&T), &block(*words), 2)?;
        }
        Ok(watch)
    }

    #[test]
    fn right_words_pass_and_are_counted() {
        let mut watch = told(&SO_FAR).unwrap();
        assert_eq!(watch.at_point(at(1, 1), 2, 2), Ok(()));
        for (change, words) in [
            (Change::Add(at(1, 1), 2, ADDED), (&[258, 256, 512][..], [0b010, 0b110, 0b101])),
            (Change::Unstrike(2, 6), (&[258, 256, 512], [0, 0b110, 0b111])),
            (Change::Turn(1, true), TURNED),
        ] {
            assert_eq!(watch.after(change, Some(&T), &block(words), 3), Ok(()));
        }
        assert_eq!(watch.at_end(&T, &block(TURNED), 3, Some(6)), Ok(1));
        let (withdraw, restrike) = (Change::Withdraw(1, false), Change::Restrike(7));
        for (change, t) in [(withdraw, Some(&T[..])), (restrike, None)] {
            assert_eq!(watch.after(change, t, &block(ALL_STRUCK), 3), Ok(()));
        }
        assert_eq!(watch.at_end(&T, &block(ALL_STRUCK), 3, None), Ok(0));
        let words = 3 * (2 + 67) + 7 * (3 + 67);
        assert_eq!(watch.seen, Seen { changes: [1; KINDS], words, points: 1 });
    }

    #[test]
    fn a_wrong_word_is_told_with_its_change_and_its_rule() {
        for wrong in [257, 258, 512] {
            let mut changes = SO_FAR;
            let counts = [258, wrong];
            changes[2].1 .0 = &counts;
            let due = format!(
                "after Strike(2, false), at Decisions {{ decided: 1, fitted: 1 }} with 2 struck: \
                 rule 1 (from 0), Rule {{ fitted: 4, left_out: 1 }}: the word of its counts is \
                 {wrong}, due is 256, Tallies {{ names_struck: false, keeping: 0, undecided: 1 }}"
            );
            assert_eq!(told(&changes).unwrap_err(), due);
        }
    }

    #[test]
    fn a_wrong_bit_is_told_with_its_change_and_its_row() {
        for (row, name) in ["in play", "kept by no decision", "naming a struck option"]
            .into_iter()
            .chain(["naming option 1", "naming option 2", "naming option 3"])
            .enumerate()
        {
            for (bit, of) in [(0, "0 (from 0), Rule {"), (2, "2 (from 0), which does not exist")] {
                let mut q = block(STRUCK);
                q[64 + row] ^= 1 << bit;
                let told = told(&SO_FAR[..2]).unwrap().after(SO_FAR[2].0, None, &q, 2).unwrap_err();
                assert!(told.starts_with("after Strike(2, false), at Decisions {"), "{told}");
                assert!(told.contains(&format!(": rule {of}")), "{told}");
                assert!(told.contains(&format!(": its bit in the row `{name}` is ")), "{told}");
            }
        }
    }

    #[test]
    fn a_change_that_is_not_told_is_seen_at_the_end() {
        let at_end = |words, rules, struck| {
            told(&SO_FAR).unwrap().at_end(&T, &block(words), rules, struck).unwrap_err()
        };
        for words in [(&[258, 255][..], STRUCK.1), (STRUCK.0, [0b11, 0b10, 0b01])] {
            let wrong = at_end(words, 2, None);
            assert!(wrong.starts_with("at the end, at Decisions {"), "{wrong}");
        }
        let more = at_end(STRUCK, 3, None);
        assert_eq!(more, "the end does not fit: there are 2 rules, not 3");
        let other = at_end(STRUCK, 2, Some(6));
        assert_eq!(other, "the end does not fit: in force is the struck set 2, not 6");
    }

    #[test]
    fn a_rule_that_becomes_another_is_told() {
        let mut t = T;
        t[3] = 3;
        let mut watch = told(&SO_FAR).unwrap();
        let told = watch.after(Change::Unstrike(2, 2), Some(&t), &block(STRUCK), 2).unwrap_err();
        assert!(told.contains("Rule { fitted: 4, left_out: 1 }, has become Rule {"), "{told}");
    }

    #[test]
    fn rules_that_come_without_the_table_are_told() {
        let told = Watch::of(7).after(Change::Start, None, &block(SO_FAR[0].1), 2).unwrap_err();
        assert_eq!(told, "after Start, new rules come without the table");
    }

    #[test]
    fn a_change_that_does_not_fit_is_told() {
        for (change, rules, due) in [
            (Change::Start, 2, "a run starts once"),
            (Change::Decide(1, true), 2, "1 is decided at Decisions {"),
            (Change::Decide(6, true), 2, "6 is not one option"),
            (Change::Decide(2, true), 2, "2 is decided, and struck"),
            (Change::Turn(1, false), 2, "1 is not decided so at Decisions {"),
            (Change::Turn(4, false), 2, "4 is not decided so at Decisions {"),
            (Change::Withdraw(1, false), 2, "1 is not decided so at Decisions {"),
            (Change::Withdraw(0, false), 2, "0 is not one option"),
            (Change::Strike(1, true), 2, "1 is decided, and struck"),
            (Change::Strike(0, false), 2, "0 is not one option"),
            (Change::Strike(2, true), 2, "no rule in play names 2"),
            (Change::Strike(4, false), 2, "a rule in play names 4"),
            (Change::Restrike(6), 1, "there are 2 rules, not 1"),
            (Change::Restrike(2), 2, "6 is undecided, not 2"),
            (Change::Restrike(7), 2, "6 is undecided, not 7"),
            (Change::Unstrike(0, 4), 2, "in force is the struck set 2, not 0"),
            (Change::Unstrike(2, 1), 2, "1 is decided, and struck"),
            (Change::Add(at(1, 0), 2, ADDED), 3, "in force are Decisions {"),
            (Change::Add(at(1, 1), 0, ADDED), 3, "in force is the struck set 2, not 0"),
            (Change::Add(at(1, 1), 2, ADDED), 2, "there are 3 rules, not 2"),
            (Change::Add(at(1, 1), 2, Rule { left_out: 0, ..ADDED }), 3, "the table has Rule {"),
        ] {
            let told = told(&SO_FAR).unwrap().after(change, Some(&T), &block(STRUCK), rules);
            let due = format!("{change:?} does not fit: {due}");
            assert!(told.as_ref().is_err_and(|told| told.starts_with(&due)), "{told:?}");
        }
    }

    #[test]
    fn a_point_that_does_not_fit_is_told() {
        let mut watch = told(&SO_FAR).unwrap();
        for (decisions, struck, rules) in [(at(1, 0), 2, 2), (at(1, 1), 0, 2), (at(1, 1), 2, 3)] {
            let told = watch.at_point(decisions, struck, rules).unwrap_err();
            assert!(told.starts_with("the point does not fit: "), "{told}");
        }
    }

    #[test]
    fn nothing_comes_before_the_start() {
        assert!(told(&SO_FAR[1..]).unwrap_err().ends_with("before all other changes"));
        let mut watch = Watch::default();
        let not_started = "the run has not started";
        assert_eq!(watch.at_point(at(0, 0), 0, 2).unwrap_err(), not_started);
        let q = block(SO_FAR[0].1);
        assert_eq!(watch.at_end(&T, &q, 2, None).unwrap_err(), not_started);
    }
}
