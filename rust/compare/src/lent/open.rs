//! Tables, a verdict and a setting that are lent to a question with open options.

use super::{answer, Lent, Table};
use optcheck::{Kind, Tables};
use port::{Places, Tried, Verdict};

/// Lends tables of these lengths, a verdict and a setting to a call that tries all settings of these
/// open options and gives the word of the last answer, and takes out what was tried, or the number of
/// the refusal. It is an error if a word has no meaning, if the last setting is another than is due,
/// or if a lent place that is not counted is not 0; where it is refused, if anything changed.
pub fn lend(
    places: &Places,
    open: u64,
    rubbish: u64,
    call: impl FnOnce(&mut u32, &mut u64, Tables) -> u64,
) -> Result<Result<Tried, u32>, String> {
    let (mut lent, mut setting) = (Lent::new(places, rubbish), Table::new(1, rubbish));
    let mut verdict = [rubbish as u32; 2];
    let word = call(&mut verdict[0], &mut setting.lend()[0], lent.tables());
    let answer = answer(word)?;
    if verdict[1] != rubbish as u32 {
        return Err("the place after the verdict was written".to_string());
    }
    if answer.kind == Kind::Refused {
        if verdict[0] != rubbish as u32 {
            return Err("a refusal has a verdict".to_string());
        }
        setting.keeps_all_but(&[]).map_err(|what| format!("setting: {what}"))?;
        return match lent.outcome(word)? {
            refused if refused == port::Outcome::refused(answer.number) => Ok(Err(answer.number)),
            refused => Err(format!("a refusal counts something: {refused}")),
        };
    }
    setting.keeps_all_but(&[1]).map_err(|what| format!("setting: {what}"))?;
    lent.are_zero_after(answer)?;
    let (verdict, setting) = (verdict_of(verdict[0], answer.kind)?, setting.places[0]);
    let is_due = match verdict {
        Verdict::Stopped => setting & !open == 0,
        _ => setting == open,
    };
    match is_due {
        true => Ok(Ok(Tried { verdict, setting, last: lent.outcome_of_part(answer, (0, 1)) })),
        false => Err(format!("the last setting is {setting}, of open options {open}")),
    }
}

/// The verdict in a word, where it goes with the kind of the last answer: a stop with a stop, `always`
/// not with `cannot`, and `never` not with `can`.
fn verdict_of(word: u32, last: Kind) -> Result<Verdict, String> {
    match (word, last) {
        (0, Kind::Can) => Ok(Verdict::Always),
        (1, Kind::Can | Kind::Cannot) => Ok(Verdict::Sometimes),
        (2, Kind::Cannot) => Ok(Verdict::Never),
        (3, Kind::Stopped) => Ok(Verdict::Stopped),
        _ => Err(format!("the verdict is {word}, and the last answer {last:?}")),
    }
}

#[cfg(test)]
mod tests {
    use super::super::tests::{cannot, RUBBISH};
    use super::*;
    use crate::question::tried_text;

    /// What is done to the verdict, the setting and the tables.
    type Change = fn(&mut u32, &mut u64, Tables);

    const PLACES: Places = Places { derived: [2, 2], records: [64, 65, 70] };

    /// The word of a stop by the allowance, which counts nothing.
    const TEN: u64 = 3 + 4 * 10;
    /// The word of refusal 20.
    const TWENTY: u64 = 2 + 4 * 20;

    /// Zero tables with a rule and a record in their first places, `sometimes`, and the setting 5 of
    /// the open options 5. Then a change is made, and this word is answered.
    fn changed(word: u64, change: Change) -> Result<String, String> {
        let tried = lend(&PLACES, 5, RUBBISH, |verdict, setting, tables| {
            let Tables { pos, neg, decided, trues, redundant } = tables;
            for table in [&mut *pos, neg, decided, trues, redundant] {
                table.fill(0);
            }
            (pos[0], neg[0], decided[0], trues[0], redundant[0]) = (1, 2, 12, 4, 3);
            (*verdict, *setting) = (1, 5);
            change(verdict, setting, Tables { pos, neg, decided, trues, redundant });
            word
        });
        tried.map(|tried| tried_text(&tried))
    }

    #[test]
    fn the_last_outcome_stands_before_zeros() {
        let due = "sometimes\ncannot 0 2 1 1\nd 1 2\nr 12 4 3\n";
        assert_eq!(changed(cannot(1, 1), |_, _, _| ()), Ok(due.to_string()));
    }

    #[test]
    fn every_lent_place_that_is_not_counted_is_0() {
        let changes: [(Change, usize); 5] = [
            (|_, _, tables| tables.pos[1] = 1, 1),
            (|_, _, tables| tables.neg[1] = RUBBISH ^ 1, 1),
            (|_, _, tables| tables.decided[63] = 1, 63),
            (|_, _, tables| tables.trues[64] = RUBBISH ^ 64, 64),
            (|_, _, tables| tables.redundant[69] = 1, 69),
        ];
        for (change, place) in changes {
            let due = format!("place {place} is not 0, and it is not counted");
            assert_eq!(changed(cannot(1, 1), change), Err(due));
        }
        let told = changed(cannot(0, 1), |_, _, _| ()).unwrap_err();
        assert_eq!(told, "place 0 is not 0, and it is not counted");
        let told = changed(cannot(3, 1), |_, _, _| ()).unwrap_err();
        assert_eq!(told, "a count of 3 in a table of 2");
    }

    #[test]
    fn the_verdict_goes_with_the_last_answer_and_the_setting_with_the_open_options() {
        let told = changed(cannot(1, 1), |verdict, _, _| *verdict = 0).unwrap_err();
        assert_eq!(told, "the verdict is 0, and the last answer Cannot");
        let told = changed(cannot(1, 1), |verdict, _, _| *verdict = 4).unwrap_err();
        assert_eq!(told, "the verdict is 4, and the last answer Cannot");
        let told = changed(cannot(1, 1), |_, setting, _| *setting = 4).unwrap_err();
        assert_eq!(told, "the last setting is 4, of open options 5");
        let never = changed(cannot(1, 1), |verdict, _, _| *verdict = 2).unwrap();
        assert!(never.starts_with("never\ncannot 0 "), "{never}");
    }

    #[test]
    fn a_stop_has_a_setting_of_the_open_options() {
        let stopped = |setting: u64| {
            lend(&PLACES, 5, RUBBISH, |verdict, place, tables| {
                let Tables { pos, neg, decided, trues, redundant } = tables;
                for table in [pos, neg, decided, trues, redundant] {
                    table.fill(0);
                }
                (*verdict, *place) = (3, setting);
                TEN
            })
        };
        assert_eq!(tried_text(&stopped(4).unwrap()), "stopped 4\nstopped 10 0 0 0\n");
        assert_eq!(stopped(2).unwrap_err(), "the last setting is 2, of open options 5");
    }

    #[test]
    fn a_refusal_changes_nothing() {
        let refused = |word: u64, change: Change| {
            lend(&PLACES, 5, RUBBISH, |verdict, setting, tables| {
                change(verdict, setting, tables);
                word
            })
        };
        assert_eq!(refused(TWENTY, |_, _, _| ()), Ok(Err(20)));
        let told = refused(TWENTY, |verdict, _, _| *verdict = 0).unwrap_err();
        assert_eq!(told, "a refusal has a verdict");
        let told = refused(TWENTY, |_, setting, _| *setting = 0).unwrap_err();
        assert_eq!(told, "setting: place 0 was written, which is not counted");
        let told = refused(TWENTY, |_, _, tables| tables.redundant[69] = 0).unwrap_err();
        assert_eq!(told, "place 69 was written, which is not counted");
        let told = refused(TWENTY + (1 << 8), |_, _, _| ()).unwrap_err();
        assert_eq!(told, "a refusal counts something: refused 20 1 0 0\n");
    }
}
