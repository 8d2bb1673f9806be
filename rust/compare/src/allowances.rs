//! Small books with every pair of a branching allowance and a number of places, each up to one more
//! than the run needs, and with many lengths of the tables. Each outcome is the port's, whatever
//! rubbish is in the tables, and keeps the words of demand 3.

use crate::question::{first_difference, Check};
use crate::small::{Small, SMALL};
use crate::under_test::UnderTest;
use optbook::bytes::{book_bytes, input_bytes};
use optbook::{Book, Order, Rule};
use port::{Ending, Outcome, Places};

/// More than any of the books needs.
const AMPLE_ALLOWANCE: u32 = 1000;
const AMPLE_PLACES: usize = 100;

/// What the tables hold before a run with a pair of allowances, and the lengths of the record tables.
const LENT: [(u64, [usize; 3]); 2] =
    [(0xaaaa_aaaa_aaaa_aaaa, [70, 80, 90]), (0x5555_5555_5555_5555, [64; 3])];

/// Lengths that are refused: derived tables that differ or are over 2,048, a record table under 64.
const REFUSED: [([usize; 2], [usize; 3]); 8] = [
    ([3, 4], [64; 3]),
    ([4, 3], [64; 3]),
    ([2048, 2049], [64; 3]),
    ([2049; 2], [64; 3]),
    ([100; 2], [63, 64, 64]),
    ([100; 2], [64, 63, 64]),
    ([100; 2], [64, 64, 63]),
    ([0; 2], [0; 3]),
];

/// Lengths that are permitted and ample.
const PERMITTED: [([usize; 2], [usize; 3]); 3] =
    [([2048; 2], [64; 3]), ([2048; 2], [90, 64, 77]), ([1000; 2], [65, 90, 64])];

/// How many books, pairs of allowances and lengths were tried.
#[derive(Debug, Default, PartialEq, Eq)]
pub struct Tried {
    pub books: usize,
    pub pairs: usize,
    pub lengths: usize,
}

/// A checker that has this rubbish in the tables which it is lent.
pub type Make<'a> = &'a dyn Fn(u64) -> Box<dyn UnderTest>;

/// Tries all books; the first difference ends it and is told in words.
pub fn run(make: Make) -> Result<Tried, String> {
    let mut tried = Tried::default();
    for small in &SMALL {
        try_book(make, small, &mut tried).map_err(|what| format!("{}: {what}", small.name))?;
        tried.books += 1;
    }
    Ok(tried)
}

fn try_book(make: Make, small: &Small, tried: &mut Tried) -> Result<(), String> {
    let ample = check(small);
    let outcome = ample.port_outcome();
    if outcome.to_string().lines().next() != Some(small.ample) {
        return Err(format!("ample allowances do not give {}", small.ample));
    }
    for allowance in 0..outcome.branchings + 2 {
        for places in 0..outcome.derived.len() + 2 {
            try_pair(make, &ample, &outcome, allowance, places)
                .map_err(|what| format!("allowance {allowance}, {places} places: {what}"))?;
            tried.pairs += 1;
        }
    }
    for (derived, records) in REFUSED.into_iter().chain(PERMITTED) {
        let check = ample.with_limits(Places { derived, records }, AMPLE_ALLOWANCE);
        let due = match REFUSED.contains(&(derived, records)) {
            true => Outcome::refused(9),
            false => outcome.clone(),
        };
        for (rubbish, _) in LENT {
            compare(make, rubbish, &check, &due)
                .map_err(|what| format!("tables {derived:?}, {records:?}: {what}"))?;
        }
        tried.lengths += 1;
    }
    Ok(())
}

/// The check of a small book with ample allowances.
pub fn check(small: &Small) -> Check {
    let rules = small.rules.iter().map(|&(fitted, left_out)| Rule { fitted, left_out }).collect();
    let book = Book { options: small.options, rules };
    let (wanted, unwanted, standard) = small.order;
    let input = input_bytes(Order { wanted, unwanted, standard }, &book_bytes(&book));
    Check { input, places: Places::equal(AMPLE_PLACES, 64), allowance: AMPLE_ALLOWANCE }
}

/// One pair of allowances, with each rubbish and its lengths.
fn try_pair(
    make: Make,
    check: &Check,
    ample: &Outcome,
    allowance: u32,
    places: usize,
) -> Result<(), String> {
    let seen = limited(check, allowance, places);
    if !keeps_demand_three(check, ample, &seen, allowance, places) {
        return Err(format!("demand 3 does not hold of\n{seen}"));
    }
    for (rubbish, records) in LENT {
        let places = Places { derived: [places; 2], records };
        compare(make, rubbish, &check.with_limits(places, allowance), &seen)?;
    }
    Ok(())
}

/// The checker's outcome is the one that is due.
fn compare(make: Make, rubbish: u64, check: &Check, due: &Outcome) -> Result<(), String> {
    let (due, printed) = (due.to_string(), make(rubbish).printed(&check.clone().into())?);
    match printed == due {
        true => Ok(()),
        false => Err(first_difference(&printed, &due)),
    }
}

/// The port's outcome with these allowances.
fn limited(check: &Check, allowance: u32, places: usize) -> Outcome {
    check.with_limits(Places::equal(places, 64), allowance).port_outcome()
}

/// Enough of both gives the ample outcome, and too little the named stop; no more is used than is
/// allowed; and the derived rules begin those of the ample run.
fn keeps_demand_three(
    check: &Check,
    ample: &Outcome,
    seen: &Outcome,
    allowance: u32,
    places: usize,
) -> bool {
    let stopped_by_branchings = seen.ending == Ending::Stopped(10) && seen.branchings == allowance;
    let stopped_by_places = seen.ending == Ending::Stopped(11) && seen.derived.len() == places;
    let within = seen.branchings <= allowance && seen.derived.len() <= places;
    let named = match (ample.branchings <= allowance, ample.derived.len() <= places) {
        (true, true) => seen == ample,
        (true, false) => stopped_by_places,
        (false, true) => stopped_by_branchings,
        // Both are too few: the stop is the one that the steps reach first.
        (false, false) => {
            let with_places = limited(check, allowance, ample.derived.len());
            match with_places.derived.len() <= places {
                true => stopped_by_branchings && *seen == with_places,
                false => stopped_by_places && *seen == limited(check, ample.branchings, places),
            }
        }
    };
    within && named && ample.derived.starts_with(&seen.derived)
}

#[cfg(test)]
mod tests {
    use super::*;
    use crate::question::Question;
    use crate::under_test::Port;

    /// A checker made of a function on the check.
    struct Made(fn(&Check) -> Outcome);

    impl UnderTest for Made {
        fn name(&self) -> String {
            "made".to_string()
        }

        fn takes(&self, question: &Question) -> bool {
            matches!(question, Question::Check(_))
        }

        fn printed(&mut self, question: &Question) -> Result<String, String> {
            match question {
                Question::Check(check) => Ok((self.0)(check).to_string()),
                _ => Err("no check".to_string()),
            }
        }
    }

    fn difference(made: fn(&Check) -> Outcome) -> String {
        run(&|_| Box::new(Made(made))).unwrap_err()
    }

    #[test]
    fn the_port_itself_differs_nowhere() {
        let tried = run(&|_| Box::new(Port)).unwrap();
        assert_eq!(tried, Tried { books: 26, pairs: 738, lengths: 26 * 11 });
    }

    #[test]
    fn a_branching_too_many_is_a_difference() {
        let generous =
            |check: &Check| check.with_limits(check.places, check.allowance + 1).port_outcome();
        let told = difference(generous);
        assert!(told.starts_with("1, unwanted 1: allowance 0, 0 places: line 1 is"), "{told}");
    }

    #[test]
    fn a_length_that_is_not_judged_is_a_difference() {
        let lenient = |check: &Check| {
            let derived = [check.places.derived[0]; 2];
            let records = check.places.records;
            check.with_limits(Places { derived, records }, check.allowance).port_outcome()
        };
        assert!(difference(lenient).starts_with("no options: tables [3, 4], [64, 64, 64]: line 1"));
    }

    #[test]
    fn demand_three_is_broken_by_a_wrong_stop() {
        let check = check(&SMALL[11]);
        let ample = check.port_outcome();
        let keeps = |seen: &Outcome, allowance, places| {
            keeps_demand_three(&check, &ample, seen, allowance, places)
        };
        assert!(keeps(&ample, 3, 3));
        assert!(!keeps(&ample, 2, 3));
        assert!(!keeps(&ample, 3, 2));
        let stop = limited(&check, 2, 3);
        assert!(keeps(&stop, 2, 3));
        assert!(!keeps(&Outcome { ending: Ending::Stopped(11), ..stop }, 2, 3));
    }
}
