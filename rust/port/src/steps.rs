//! The steps at a branching point, in their order. The table, the records and the counts
//! are shared by all branching points; the decisions are each point's own.

use crate::outcome::{Ending, Outcome, CAN, CANNOT};
use crate::words::{first, lowest, Decisions, Record, Rule};

/// How a branching point is left: back up, or with the end of the whole run.
enum Left {
    Up,
    End(Ending),
}

/// Which entry of an option a step looks at.
#[derive(Clone, Copy)]
enum Entry {
    LeftOut,
    Fitted,
}

/// What all branching points share.
struct Run {
    all: u64,
    table: Vec<Rule>,
    given: usize,
    places: usize,
    allowance: u32,
    branchings: u32,
    records: Vec<Record>,
}

/// The outcome of the steps on a table of the book's and the order's rules.
pub fn run(n: u32, table: Vec<Rule>, places: usize, allowance: u32) -> Outcome {
    let given = table.len();
    let records = Vec::new();
    let mut run = Run { all: first(n), table, given, places, allowance, branchings: 0, records };
    let ending = run.start();
    let derived = run.table[given..].to_vec();
    Outcome { ending, branchings: run.branchings, derived, records: run.records }
}

impl Run {
    /// Step 1, which can only apply before the first branching or where step 7 adds a rule; then
    /// the starting point. Back up from there means "can".
    fn start(&mut self) -> Ending {
        if self.table.iter().any(|rule| rule.options() == 0) {
            return self.end_with_cannot();
        }
        match self.turn(Decisions::default()) {
            Left::Up => CAN,
            Left::End(ending) => ending,
        }
    }

    /// "Cannot", with one record of all options, or with none where there is no option.
    fn end_with_cannot(&mut self) -> Ending {
        self.records.clear();
        if self.all != 0 {
            self.append(Decisions::default(), self.all);
        }
        CANNOT
    }

    /// A second side of a branching over v: step 2, then as at any point.
    fn second_side(&mut self, decisions: Decisions, v: u64) -> Left {
        let Some(rule) = self.broken_rule(v, decisions) else {
            return self.turn(decisions);
        };
        if self.live(decisions) != 0 {
            self.append(decisions.on(rule.options()), self.undecided(decisions));
        }
        Left::Up
    }

    /// Steps 3 to 7.
    fn turn(&mut self, decisions: Decisions) -> Left {
        self.sweep(decisions);
        if self.live(decisions) == 0 {
            return match self.table.iter().any(|rule| rule.is_broken(decisions)) {
                true => Left::Up,
                false => Left::End(CAN),
            };
        }
        let (v, fitted) = self.choice(decisions);
        if self.branchings == self.allowance {
            return Left::End(Ending::Stopped(10));
        }
        self.branchings += 1;
        self.branch(decisions, v, fitted)
    }

    /// Steps 5 to 7 on a chosen option: its first side, its second side, and the coming together.
    fn branch(&mut self, decisions: Decisions, v: u64, fitted: bool) -> Left {
        let first = decisions.with(v, fitted);
        let second = decisions.with(v, !fitted);
        if let Left::End(ending) = self.turn(first) {
            return Left::End(ending);
        }
        let first_last = self.last().decisions;
        self.drop_records_naming(v);
        if let Left::End(ending) = self.second_side(second, v) {
            return Left::End(ending);
        }
        let both_last = first_last.together(self.last().decisions);
        self.drop_records_naming(v);
        self.come_together(decisions, v, [first, second], both_last)
    }

    /// Step 7, where v is undecided again and the records that name it are gone.
    fn come_together(
        &mut self,
        decisions: Decisions,
        v: u64,
        sides: [Decisions; 2],
        both_last: Decisions,
    ) -> Left {
        let rest = self.undecided(decisions) & !v;
        if self.last().struck != rest {
            self.append(both_last.on(!v), rest);
        }
        if let Some((w, entry)) = self.free_option(decisions, v) {
            self.strike(decisions, w, entry);
            return Left::Up;
        }
        let rule = self.resolved(v, sides);
        let covering = self.table.iter().find(|earlier| earlier.covers(rule)).copied();
        if covering.is_none() {
            if self.table.len() - self.given == self.places {
                return Left::End(Ending::Stopped(11));
            }
            self.table.push(rule);
            if rule.options() == 0 {
                return Left::End(self.end_with_cannot());
            }
        }
        let options = covering.unwrap_or(rule).options();
        self.append(decisions.on(options), self.undecided(decisions));
        Left::Up
    }

    /// Step 3: strike the lowest free live option until there is none.
    fn sweep(&mut self, decisions: Decisions) {
        while let Some((w, entry)) = self.free_option(decisions, self.live(decisions)) {
            self.strike(decisions, w, entry);
        }
    }

    /// The test of step 3: the lowest of these options for which all rules with one of its entries
    /// are out, and that entry, left-out first. One pass collects the entries of all other rules.
    fn free_option(&self, decisions: Decisions, among: u64) -> Option<(u64, Entry)> {
        let struck = self.last().struck;
        let (mut fitted, mut left_out) = (0, 0);
        for rule in &self.table {
            if !rule.is_out(decisions, struck) {
                fitted |= rule.fitted;
                left_out |= rule.left_out;
            }
        }
        let w = lowest(among & !(fitted & left_out));
        match w {
            0 => None,
            _ if left_out & w == 0 => Some((w, Entry::LeftOut)),
            _ => Some((w, Entry::Fitted)),
        }
    }

    /// Append the record that strikes w too. Its decisions are the last record's and, for each rule
    /// of the entry that names no struck option, the lowest decision that keeps it.
    fn strike(&mut self, decisions: Decisions, w: u64, entry: Entry) {
        let Record { decisions: last, struck } = self.last();
        let mut reasons = 0;
        for rule in &self.table {
            let with_entry = match entry {
                Entry::LeftOut => rule.left_out,
                Entry::Fitted => rule.fitted,
            };
            if with_entry & w != 0 && rule.options() & struck == 0 {
                reasons |= lowest(rule.true_entries(decisions));
            }
        }
        self.append(last.together(decisions.on(reasons)), struck | w);
    }

    /// Step 5's option and whether its first side fits it.
    fn choice(&self, decisions: Decisions) -> (u64, bool) {
        let struck = self.last().struck;
        for rule in &self.table {
            let open = rule.options() & !decisions.decided;
            if open.count_ones() == 1 && !rule.is_out(decisions, struck) {
                return (open, rule.fitted & open != 0);
            }
        }
        (lowest(self.live(decisions)), false)
    }

    /// The lowest-numbered broken rule that names v.
    fn broken_rule(&self, v: u64, decisions: Decisions) -> Option<Rule> {
        let names_v = |rule: &&Rule| rule.options() & v != 0;
        self.table.iter().filter(names_v).find(|rule| rule.is_broken(decisions)).copied()
    }

    /// The rules naming v that are broken on each side, joined without v's entries. Both are there:
    /// all other undecided options are struck, and a rule that is not out names none of them.
    fn resolved(&self, v: u64, sides: [Decisions; 2]) -> Rule {
        let [first, second] = sides.map(|side| {
            self.broken_rule(v, side).expect("an entry of v that is not free has a broken rule")
        });
        Rule {
            fitted: (first.fitted | second.fitted) & !v,
            left_out: (first.left_out | second.left_out) & !v,
        }
    }

    /// The last record; the empty list means no decisions and nothing struck.
    fn last(&self) -> Record {
        self.records.last().copied().unwrap_or_default()
    }

    fn append(&mut self, decisions: Decisions, struck: u64) {
        self.records.push(Record { decisions, struck });
    }

    fn drop_records_naming(&mut self, v: u64) {
        self.records.retain(|record| record.decisions.decided & v == 0);
    }

    fn undecided(&self, decisions: Decisions) -> u64 {
        self.all & !decisions.decided
    }

    fn live(&self, decisions: Decisions) -> u64 {
        self.undecided(decisions) & !self.last().struck
    }
}
