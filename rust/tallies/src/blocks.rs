//! The words in which the engine holds the tallies, block by block, and the watcher's own copy of the
//! rules, from which they are counted anew. The rules stand in blocks of 64. A block has a word of
//! counts for each rule, and then its rows of the index, in which each rule has the bit of its place.

use crate::recount::{entries, Entry, Options, OPTIONS};
use port::{Decisions, Rule};

/// The rules of a block.
const RULES: usize = 64;

/// The rows of a block: three, and then one for each option.
const ROWS: usize = 3 + OPTIONS;

/// The words of a block.
const WORDS: usize = RULES + ROWS;

/// How many words so many rules take.
pub fn words(rules: usize) -> usize {
    WORDS * rules.div_ceil(RULES)
}

/// The rules of a run, each with its entries.
#[derive(Debug, Default)]
pub struct Rules {
    rules: Vec<(Rule, Vec<Entry>)>,
}

impl Rules {
    pub fn count(&self) -> usize {
        self.rules.len()
    }

    /// One rule more.
    pub fn push(&mut self, rule: Rule) {
        self.rules.push((rule, entries(rule)));
    }

    /// The table has these rules.
    pub fn are_in(&self, t: &[u64]) -> Result<(), String> {
        for (i, (rule, _)) in self.rules.iter().enumerate() {
            let other = rule_at(t, i);
            if other != *rule {
                return Err(format!("rule {i} (from 0), {rule:?}, has become {other:?}"));
            }
        }
        Ok(())
    }

    /// A rule that is in play at these decisions, with this set struck, names the option.
    pub fn in_play_name(&self, decisions: Decisions, struck: u64, option: u64) -> bool {
        let options = Options::at(decisions, struck);
        let mut naming = self.rules.iter().filter(|(rule, _)| rule.options() & option != 0);
        naming.any(|(_, entries)| options.tallies(entries).is_in_play())
    }

    /// All words of the blocks in use, but for the counts of places that have no rule, are due at these
    /// decisions, with this set struck: each rule is counted anew. Gives how many words these are.
    pub fn compare(&self, decisions: Decisions, struck: u64, q: &[u64]) -> Result<usize, String> {
        let options = Options::at(decisions, struck);
        let mut words = 0;
        for (block, rules) in self.rules.chunks(RULES).enumerate() {
            let (counts, rows) = q[WORDS * block..WORDS * (block + 1)].split_at(RULES);
            let mut due = [0; ROWS];
            for (place, (_, entries)) in rules.iter().enumerate() {
                let tallies = options.tallies(entries);
                if counts[place] != tallies.word() {
                    let (is, due) = (counts[place], tallies.word());
                    let what = format!("the word of its counts is {is}, due is {due}");
                    return Err(self.told(RULES * block + place, &options, &what));
                }
                for (row, is_in) in due.iter_mut().zip(tallies.rows()) {
                    *row |= u64::from(is_in) << place;
                }
                for entry in entries {
                    due[3 + entry.option] |= 1 << place;
                }
            }
            if let Some(row) = (0..ROWS).find(|&row| rows[row] != due[row]) {
                let place = (rows[row] ^ due[row]).trailing_zeros() as usize;
                let [is, due] = [rows[row], due[row]].map(|word| word >> place & 1);
                let what = format!("its bit in the row {} is {is}, due is {due}", name(row));
                return Err(self.told(RULES * block + place, &options, &what));
            }
            words += rules.len() + ROWS;
        }
        Ok(words)
    }

    /// What is wrong at the place of a rule.
    fn told(&self, i: usize, options: &Options, what: &str) -> String {
        match self.rules.get(i) {
            Some((rule, entries)) => {
                format!("rule {i} (from 0), {rule:?}: {what}, {:?}", options.tallies(entries))
            }
            None => format!("rule {i} (from 0), which does not exist: {what}"),
        }
    }
}

/// The rule of this number, counted from 0.
pub fn rule_at(t: &[u64], i: usize) -> Rule {
    Rule { fitted: t[2 * i], left_out: t[2 * i + 1] }
}

/// A row in words.
fn name(row: usize) -> String {
    match row {
        0 => "`in play`".to_string(),
        1 => "`kept by no decision`".to_string(),
        2 => "`naming a struck option`".to_string(),
        _ => format!("`naming option {}`", row - 2),
    }
}

#[cfg(test)]
mod tests {
    use super::*;

    /// Option 1 is decided as fitted.
    const AT: Decisions = Decisions { decided: 1, fitted: 1 };

    /// 66 rules: "1 or 2" is the last of the first block and the first of the second one, the last is
    /// the empty rule, and all others are "not 1 or 64".
    fn rules() -> Rules {
        let mut rules = Rules::default();
        for i in 0..66 {
            rules.push(match i {
                63 | 64 => Rule { fitted: 3, left_out: 0 },
                65 => Rule { fitted: 0, left_out: 0 },
                _ => Rule { fitted: 1 << 63, left_out: 1 },
            });
        }
        rules
    }

    /// The words of both blocks where option 2 is struck.
    fn right() -> Vec<u64> {
        let mut q = vec![u64::MAX; 2 * 131];
        q[..63].fill(256);
        q[63] = 256 + 2;
        q[64..131].fill(0);
        q[64..67].copy_from_slice(&[u64::MAX >> 1, u64::MAX >> 1, 1 << 63]);
        (q[67], q[68], q[130]) = (u64::MAX, 1 << 63, u64::MAX >> 1);
        (q[131], q[132]) = (256 + 2, 0);
        q[195..262].fill(0);
        q[195..198].copy_from_slice(&[2, 2, 1]);
        (q[198], q[199]) = (1, 1);
        q
    }

    #[test]
    fn so_many_rules_take_whole_blocks() {
        assert_eq!([0, 1, 64, 65, 128].map(words), [0, 131, 131, 262, 262]);
    }

    #[test]
    fn right_words_are_counted() {
        assert_eq!(rules().compare(AT, 2, &right()), Ok(66 + 2 * 67));
        assert_eq!(Rules::default().compare(AT, 2, &[]), Ok(0));
    }

    #[test]
    fn every_wrong_bit_is_told() {
        let rules = rules();
        for word in (0..2 * 131).filter(|word| !(131 + 2..131 + 64).contains(word)) {
            for bit in 0..64 {
                let mut q = right();
                q[word] ^= 1 << bit;
                let told = rules.compare(AT, 2, &q).unwrap_err();
                let (block, place) = (word / 131, word % 131);
                let rule = 64 * block + if place < 64 { place } else { bit };
                assert!(told.starts_with(&format!("rule {rule} (from 0), ")), "{told}");
                assert_eq!(told.contains("the word of its counts is "), place < 64, "{told}");
                assert_eq!(told.contains(", which does not exist: its bit "), rule > 65, "{told}");
            }
        }
    }

    #[test]
    fn each_row_is_told_by_name_with_what_is_due() {
        let told = |word: usize, bit: usize| {
            let mut q = right();
            q[word] ^= 1 << bit;
            rules().compare(AT, 2, &q).unwrap_err()
        };
        let kept = "rule 64 (from 0), Rule { fitted: 3, left_out: 0 }: its bit in the row";
        let of_kept = "Tallies { names_struck: true, keeping: 1, undecided: 1 }";
        for (row, name, is, due) in [
            (0, "in play", 1, 0),
            (1, "kept by no decision", 1, 0),
            (2, "naming a struck option", 0, 1),
            (3, "naming option 1", 0, 1),
            (66, "naming option 64", 1, 0),
        ] {
            let due = format!("{kept} `{name}` is {is}, due is {due}, {of_kept}");
            assert_eq!(told(131 + 64 + row, 0), due);
        }
        let beyond = "rule 66 (from 0), which does not exist: its bit in the row `in play` is 1";
        assert_eq!(told(131 + 64, 2), format!("{beyond}, due is 0"));
    }

    #[test]
    fn a_rule_in_play_that_names_an_option_is_found() {
        let rules = rules();
        assert!(rules.in_play_name(AT, 2, 1 << 63));
        assert!(rules.in_play_name(AT, 2, 1));
        assert!(!rules.in_play_name(AT, 0, 2), "a decision keeps it");
        assert!(!rules.in_play_name(AT, 1 << 63, 1), "it names a struck option");
        assert!(!rules.in_play_name(AT, 0, 4), "no rule names it");
        let none = Decisions::default();
        assert!(rules.in_play_name(none, 0, 2));
    }

    #[test]
    fn a_table_with_another_rule_is_told() {
        let rules = rules();
        let mut t: Vec<u64> =
            rules.rules.iter().flat_map(|(rule, _)| [rule.fitted, rule.left_out]).collect();
        assert_eq!(rules.are_in(&t), Ok(()));
        t[131] = 4;
        assert_eq!(
            rules.are_in(&t).unwrap_err(),
            "rule 65 (from 0), Rule { fitted: 0, left_out: 0 }, has become Rule { fitted: 0, \
             left_out: 4 }"
        );
    }
}
