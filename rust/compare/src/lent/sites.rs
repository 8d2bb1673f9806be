//! A terminal, and tables for each of its sites, which are lent to a run of calls, one a site, or to one
//! call that serves them all.

use super::terminal::{self, Numbers};
use super::{answer, Lent};
use crate::question::After;
use optcheck::{Answer, Tables};
use port::{Outcome, Places};

/// Lends a terminal to a call that opens it for so many sites and gives 0 or the number of the refusal,
/// and then it and each site's tables, of these lengths, to a call that serves the site with this index and
/// gives the word of its answer; and takes the outcomes out. It is an error if a word is no answer's, if a
/// place changed that is not counted, if the terminal's numbers are not those that are due, or if a call
/// after the last site is not refused or changes anything; where the terminal is refused, if a number
/// changed.
pub fn lend(
    places: &[Places],
    allowance: u32,
    rubbish: u64,
    open: impl FnOnce([&mut u32; 3]) -> u32,
    mut call: impl FnMut(usize, [&mut u32; 2], u32, Tables) -> u64,
) -> Result<Result<Vec<Outcome>, u32>, String> {
    let mut terminal = Numbers::new([rubbish as u32; 3], rubbish);
    let refusal = open(terminal.lend());
    let opened = terminal.taken()?;
    if refusal != 0 {
        are_due("a refused terminal", opened, [rubbish as u32; 3])?;
        return Ok(Err(refusal));
    }
    let count = places.len() as u32;
    let part = allowance.checked_div(count).ok_or("a terminal without sites is opened")?;
    are_due("an opened terminal", opened, [allowance, part, count])?;
    let [mut left, part, mut sites] = opened;
    let mut served = Vec::new();
    for (index, places) in places.iter().enumerate() {
        let mut lent = Lent::new(places, rubbish);
        let serve = |numbers: [&mut u32; 2], tables: Tables| call(index, numbers, part, tables);
        let (word, after) = terminal::serve(&mut lent, [left, sites], rubbish, serve)?;
        let used = answer(word)?.branchings;
        let rest = left.checked_sub(used).ok_or(format!("site {index} uses {used} of {left}"))?;
        are_due(&format!("after site {index} the terminal"), after, [rest, sites - 1])?;
        [left, sites] = after;
        served.push((lent, word));
    }
    let again = |numbers: [&mut u32; 2], tables: Tables| call(0, numbers, part, tables);
    let after = terminal::lend(&places[0], [left, sites], rubbish, again)
        .map_err(|what| format!("a call after the last site: {what}"))?;
    if after != (After { outcome: Outcome::refused(21), left, sites }) {
        return Err(format!("a call after the last site: {after:?}"));
    }
    let outcome = |(index, (lent, word)): (usize, &(Lent, u64))| {
        lent.outcome(*word).map_err(|what| format!("site {index}: {what}"))
    };
    Ok(Ok(served.iter().enumerate().map(outcome).collect::<Result<_, _>>()?))
}

/// The numbers are those that are due.
fn are_due<const N: usize>(what: &str, numbers: [u32; N], due: [u32; N]) -> Result<(), String> {
    match numbers == due {
        true => Ok(()),
        false => Err(format!("{what} has {numbers:?}, due is {due:?}")),
    }
}

/// Lends tables of these lengths to a call that serves all sites, and takes the outcomes out. It is an
/// error if a place changed that is not counted; where the sites are refused, none may change.
pub fn lend_to_all(
    places: &[Places],
    rubbish: u64,
    call: impl FnOnce(Vec<Tables>) -> Result<Vec<Answer>, u32>,
) -> Result<Result<Vec<Outcome>, u32>, String> {
    let mut lent: Vec<Lent> = places.iter().map(|places| Lent::new(places, rubbish)).collect();
    let answers = match call(lent.iter_mut().map(Lent::tables).collect()) {
        Ok(answers) => answers,
        Err(refusal) => {
            lent.iter().try_for_each(|lent| lent.keep_all_but(&[]))?;
            return Ok(Err(refusal));
        }
    };
    if answers.len() != lent.len() {
        return Err(format!("{} answers to {} sites", answers.len(), lent.len()));
    }
    let outcome = |(index, (lent, &answer)): (usize, (&Lent, &Answer))| {
        lent.keep_all_but(&[answer]).map_err(|what| format!("site {index}: {what}"))?;
        Ok(lent.outcome_of_part(answer, (0, 1)))
    };
    let outcomes = lent.iter().zip(&answers).enumerate().map(outcome);
    Ok(Ok(outcomes.collect::<Result<_, String>>()?))
}

#[cfg(test)]
mod tests {
    use super::super::tests::{cannot, RUBBISH};
    use super::*;
    use crate::question::in_turn;

    /// Tables of two sites.
    const PLACES: [Places; 2] = [
        Places { derived: [2, 2], records: [64, 65, 70] },
        Places { derived: [0, 1], records: [64, 64, 66] },
    ];

    /// The words of the refusals 9 and 21.
    const NINE: u64 = 2 + 4 * 9;
    const TWENTY_ONE: u64 = 2 + 4 * 21;

    /// What is done to a terminal's numbers and the tables by the call with this index: 0 and 1 serve the
    /// sites, and 2 comes after the last one.
    type Change = fn(usize, [&mut u32; 2], Tables);

    /// A terminal of two sites with 7 branchings, the first of which uses 2 and writes a rule and a record,
    /// and the second of which is refused. After each call a change is made, and it answers these words.
    fn changed(words: [u64; 3], change: Change) -> Result<String, String> {
        let open = |[left, part, sites]: [&mut u32; 3]| {
            (*left, *part, *sites) = (7, 3, 2);
            0
        };
        let mut calls = 0;
        let served = lend(&PLACES, 7, RUBBISH, open, |index, [left, sites], part, tables| {
            let number = calls;
            assert_eq!((index, part), (number % 2, 3));
            calls += 1;
            let Tables { pos, neg, decided, trues, redundant } = tables;
            if number == 0 {
                (pos[0], neg[0], decided[0], trues[0], redundant[0]) = (1, 2, 12, 4, 3);
                *left -= 2;
            }
            *sites -= u32::from(number < 2);
            change(number, [left, sites], Tables { pos, neg, decided, trues, redundant });
            words[number]
        });
        served.map(|outcomes| in_turn(&outcomes))
    }

    /// The words that are due.
    fn words() -> [u64; 3] {
        [cannot(1, 1), NINE, TWENTY_ONE]
    }

    #[test]
    fn each_sites_outcome_stands_in_its_own_tables() {
        let due = "cannot 0 2 1 1\nd 1 2\nr 12 4 3\nrefused 9 0 0 0\n";
        assert_eq!(changed(words(), |_, _, _| ()), Ok(due.to_string()));
    }

    #[test]
    fn every_place_that_no_site_counts_is_looked_at() {
        let written = |place: usize| format!("place {place} was written, which is not counted");
        let changes: [(Change, &str, usize); 5] = [
            (
                |call, _, tables| {
                    if call == 0 {
                        tables.pos[1] = 0
                    }
                },
                "site 0",
                1,
            ),
            (
                |call, _, tables| {
                    if call == 0 {
                        tables.redundant[69] = 0
                    }
                },
                "site 0",
                69,
            ),
            (
                |call, _, tables| {
                    if call == 1 {
                        tables.neg[0] = 0
                    }
                },
                "site 1",
                0,
            ),
            (
                |call, _, tables| {
                    if call == 1 {
                        tables.trues[63] = 0
                    }
                },
                "site 1",
                63,
            ),
            (
                |call, _, tables| {
                    if call == 2 {
                        tables.neg[0] = 0
                    }
                },
                "a call after the last site",
                0,
            ),
        ];
        for (change, what, place) in changes {
            assert_eq!(changed(words(), change), Err(format!("{what}: {}", written(place))));
        }
        let told = changed([cannot(3, 1), NINE, TWENTY_ONE], |_, _, _| ()).unwrap_err();
        assert_eq!(told, "site 0: a count of 3 in a table of 2");
    }

    #[test]
    fn the_terminal_is_looked_at_after_each_call() {
        let changes: [(Change, &str); 5] = [
            (
                |call, [left, _], _| *left += u32::from(call == 0),
                "after site 0 the terminal has [6, 1], due is [5, 1]",
            ),
            (
                |call, [_, sites], _| *sites += u32::from(call == 0),
                "after site 0 the terminal has [5, 2], due is [5, 1]",
            ),
            (
                |call, [left, _], _| *left -= u32::from(call == 1),
                "after site 1 the terminal has [4, 0], due is [5, 0]",
            ),
            (|call, [left, _], _| *left -= u32::from(call == 2), "left: 4, sites: 0 }"),
            (|call, [_, sites], _| *sites += u32::from(call == 2), "left: 5, sites: 1 }"),
        ];
        for (change, due) in changes {
            let told = changed(words(), change).unwrap_err();
            assert!(told.ends_with(due), "{told}");
        }
        let used = changed([cannot(1, 1) + (6 << 8), NINE, TWENTY_ONE], |_, _, _| ());
        assert_eq!(used, Err("site 0 uses 8 of 7".to_string()));
    }

    #[test]
    fn a_call_after_the_last_site_is_refused_with_21() {
        for word in [NINE, cannot(0, 0), TWENTY_ONE + (1 << 8)] {
            let told = changed([cannot(1, 1), NINE, word], |_, _, _| ()).unwrap_err();
            assert!(told.starts_with("a call after the last site: After { outcome: "), "{told}");
        }
    }

    #[test]
    fn an_opened_terminal_has_its_numbers_and_a_refused_one_none() {
        let opened = |places: &[Places], numbers: [u32; 3], refusal: u32| {
            let open = |lent: [&mut u32; 3]| {
                lent.into_iter().zip(numbers).for_each(|(place, number)| *place = number);
                refusal
            };
            lend(places, 7, RUBBISH, open, |_, _, _, _| panic!("a site is served"))
        };
        let rubbish = RUBBISH as u32;
        assert_eq!(opened(&PLACES, [rubbish; 3], 21), Ok(Err(21)));
        for numbers in [[7, rubbish, rubbish], [rubbish, 3, rubbish], [rubbish, rubbish, 2]] {
            let told = opened(&PLACES, numbers, 21).unwrap_err();
            assert!(told.starts_with("a refused terminal has ["), "{told}");
        }
        for numbers in [[8, 3, 2], [7, 4, 2], [7, 3, 1]] {
            let told = opened(&PLACES, numbers, 0).unwrap_err();
            let due = format!("an opened terminal has {numbers:?}, due is [7, 3, 2]");
            assert_eq!(told, due);
        }
        let told = opened(&[], [7, 0, 0], 0).unwrap_err();
        assert_eq!(told, "a terminal without sites is opened");
    }

    /// The same two sites in one call. Then a change is made.
    fn together(
        change: fn(&mut Vec<Tables>),
        answers: Result<Vec<u64>, u32>,
    ) -> Result<String, String> {
        let served = lend_to_all(&PLACES, RUBBISH, |mut tables| {
            if answers.is_ok() {
                let Tables { pos, neg, decided, trues, redundant } = &mut tables[0];
                (pos[0], neg[0], decided[0], trues[0], redundant[0]) = (1, 2, 12, 4, 3);
            }
            change(&mut tables);
            answers.map(|words| words.into_iter().map(Answer::of_word).collect())
        });
        served.map(|outcomes| in_turn(&outcomes))
    }

    #[test]
    fn sites_in_one_call_are_looked_at_likewise() {
        let words = || Ok(vec![cannot(1, 1), NINE]);
        let due = "cannot 0 2 1 1\nd 1 2\nr 12 4 3\nrefused 9 0 0 0\n";
        assert_eq!(together(|_| (), words()), Ok(due.to_string()));
        let told = together(|tables| tables[0].decided[63] = 0, words()).unwrap_err();
        assert_eq!(told, "site 0: place 63 was written, which is not counted");
        let told = together(|tables| tables[1].redundant[0] = 0, words()).unwrap_err();
        assert_eq!(told, "site 1: place 0 was written, which is not counted");
        let told = together(|_| (), Ok(vec![cannot(1, 1)])).unwrap_err();
        assert_eq!(told, "1 answers to 2 sites");
        assert_eq!(together(|_| (), Err(21)), Ok("refused 21 0 0 0\n".to_string()));
        let told = together(|tables| tables[1].neg[0] = 0, Err(21)).unwrap_err();
        assert_eq!(told, "place 0 was written, which is not counted");
    }
}
