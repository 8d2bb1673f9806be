//! Generated mornings through the checker under test and through the port, all that is printed
//! compared; each answer must also be the checker's own to the order asked singly, with tables as long
//! as the order's parts. So the verdicts are those of single checks, which others confirm
//! (differential.rs).

mod made;

pub use made::morning;

use crate::question::{ending_name, first_difference, in_turn, Morning, Question};
use crate::under_test::UnderTest;
use port::{Ending, Outcome, CAN, CANNOT};

/// At least so many mornings, so that every ending is seen.
const LEAST: usize = 400;

/// So many mornings go to one checker before the next one's turn. The kinds of mornings come round in
/// other numbers (made.rs), so each comes to each checker.
const TURN: usize = 7;

/// The endings of a morning's orders, and the refusal of a whole morning.
const ENDINGS: [Ending; 15] = [
    CAN,
    CANNOT,
    Ending::Refused(1),
    Ending::Refused(2),
    Ending::Refused(3),
    Ending::Refused(4),
    Ending::Refused(5),
    Ending::Refused(6),
    Ending::Refused(7),
    Ending::Refused(8),
    Ending::Refused(9),
    Ending::Stopped(10),
    Ending::Stopped(11),
    Ending::Refused(12),
    Ending::Refused(13),
];

/// What was compared: the mornings, their answers that were also asked for singly, and all endings.
#[derive(Debug, Default)]
pub struct Tally {
    mornings: usize,
    singly: usize,
    endings: [usize; ENDINGS.len()],
}

/// So many mornings go with so many books.
pub fn beside(books: usize) -> usize {
    LEAST.max(books)
}

/// Runs this many generated mornings through these checkers in turn, which differ in the rubbish in
/// the tables that they are lent; the first difference ends it and is told in words, as is an ending
/// that was never seen. Checkers that take no mornings are not asked.
pub fn run(
    tested: &mut [Box<dyn UnderTest>],
    seed: u64,
    mornings: usize,
) -> Result<Option<Tally>, String> {
    if !tested.iter().all(|checker| checker.takes(&morning(seed, 0).into())) {
        return Ok(None);
    }
    let mut tally = Tally::default();
    for number in 0..mornings {
        let morning = morning(seed, number);
        let checker = tested[number / TURN % tested.len()].as_mut();
        compare(checker, &morning, &mut tally).map_err(|difference| {
            format!("morning {number} of seed {seed}: {difference}\n{}", morning.told())
        })?;
    }
    tally.has_all()?;
    Ok(Some(tally))
}

/// Compares one morning, and counts it.
fn compare(tested: &mut dyn UnderTest, morning: &Morning, tally: &mut Tally) -> Result<(), String> {
    let outcomes = morning.port_outcomes();
    let (due, printed) = (in_turn(&outcomes), tested.printed(&morning.clone().into())?);
    if printed != due {
        let line = first_difference(&printed, &due);
        return Err(format!("the answers differ: {}'s {line}", tested.name()));
    }
    if outcomes.is_ok() {
        let mut singly = String::new();
        for check in morning.singly() {
            singly += &tested.printed(&Question::from(check))?;
            tally.singly += 1;
        }
        if singly != printed {
            let line = first_difference(&printed, &singly);
            return Err(format!("{}'s answers to single checks differ: {line}", tested.name()));
        }
    }
    tally.add(&outcomes);
    Ok(())
}

impl Tally {
    fn add(&mut self, outcomes: &Result<Vec<Outcome>, u32>) {
        self.mornings += 1;
        match outcomes {
            Ok(outcomes) => outcomes.iter().for_each(|outcome| self.add_ending(outcome.ending)),
            Err(number) => self.add_ending(Ending::Refused(*number)),
        }
    }

    fn add_ending(&mut self, ending: Ending) {
        let position = ENDINGS.iter().position(|&known| known == ending).expect("a known ending");
        self.endings[position] += 1;
    }

    /// Every ending was seen.
    fn has_all(&self) -> Result<(), String> {
        match ENDINGS.iter().zip(self.endings).find(|(_, count)| *count == 0) {
            Some((ending, _)) => {
                Err(format!("no morning with `{}` was seen", ending_name(*ending)))
            }
            None => Ok(()),
        }
    }

    /// So many mornings, of which endings, and so many answers that were also asked for singly.
    pub fn told(&self) -> String {
        let counts: Vec<String> = ENDINGS
            .iter()
            .zip(self.endings)
            .map(|(ending, count)| format!("{} {count}", ending_name(*ending)))
            .collect();
        format!(
            "{:<20} {:>6}   {}\nanswers of mornings that single checks give too: {}\n",
            "mornings",
            self.mornings,
            counts.join(", "),
            self.singly
        )
    }
}

#[cfg(test)]
mod tests {
    use super::*;
    use crate::question::Check;
    use crate::under_test::{Port, Program};
    use port::Places;

    /// A checker made of a function for a morning and one for a check.
    struct Made {
        morning: fn(&Morning) -> Result<Vec<Outcome>, u32>,
        check: fn(&Check) -> Outcome,
    }

    impl Made {
        fn boxed(
            morning: fn(&Morning) -> Result<Vec<Outcome>, u32>,
            check: fn(&Check) -> Outcome,
        ) -> Box<dyn UnderTest> {
            Box::new(Made { morning, check })
        }
    }

    impl UnderTest for Made {
        fn name(&self) -> String {
            "made".to_string()
        }

        fn takes(&self, question: &Question) -> bool {
            matches!(question, Question::Check(_) | Question::Morning(_))
        }

        fn printed(&mut self, question: &Question) -> Result<String, String> {
            match question {
                Question::Check(check) => Ok((self.check)(check).to_string()),
                Question::Morning(morning) => Ok(in_turn(&(self.morning)(morning))),
                _ => Err("neither a check nor a morning".to_string()),
            }
        }
    }

    /// What is told of a checker whose mornings are made in this way.
    fn difference(morning: fn(&Morning) -> Result<Vec<Outcome>, u32>) -> String {
        run(&mut [Made::boxed(morning, Check::port_outcome)], 3, LEAST).unwrap_err()
    }

    /// A morning's orders asked singly, with places and an allowance for the order with each index.
    fn by_order(
        morning: &Morning,
        limits: impl Fn(&Morning, usize) -> (Places, u32),
    ) -> Result<Vec<Outcome>, u32> {
        morning.port_outcomes()?;
        let singly = morning.singly();
        let of = |(index, check): (usize, &Check)| {
            let (places, allowance) = limits(morning, index);
            check.with_limits(places, allowance).port_outcome()
        };
        Ok(singly.iter().enumerate().map(of).collect())
    }

    /// The lengths of an order's parts, from a function of a table's length and the number of orders.
    fn parts(morning: &Morning, of: impl Fn(usize, usize) -> usize) -> Places {
        let (Places { derived, records }, orders) = (morning.places, morning.orders.len());
        Places {
            derived: derived.map(|length| of(length, orders)),
            records: records.map(|length| of(length, orders)),
        }
    }

    #[test]
    fn every_ending_is_seen_and_counted_whatever_the_seed_is() {
        for seed in 1..9 {
            let tally = run(&mut [Box::new(Port)], seed, beside(0)).unwrap().unwrap();
            assert_eq!(tally.mornings, 400);
            let refused = tally.endings[ENDINGS.len() - 1];
            assert_eq!(tally.endings.iter().sum::<usize>(), tally.singly + refused);
            let told = tally.told();
            assert!(told.starts_with("mornings                400   can "), "{told}");
            let last =
                format!("\nanswers of mornings that single checks give too: {}\n", tally.singly);
            assert!(told.ends_with(&format!(", refused 13 {refused}{last}")), "{told}");
        }
    }

    #[test]
    fn the_first_difference_is_told_with_the_morning() {
        let told = difference(|_| Err(13));
        let due = "morning 0 of seed 3: the answers differ: made's line 1 is `refused 13 0 0 0`, \
                   due is `";
        assert!(told.starts_with(due), "{told}");
        assert!(told.contains("\nmorning\nbook "), "{told}");
    }

    #[test]
    fn refused_mornings_come_to_each_checker() {
        let wrong = |morning: &Morning| morning.port_outcomes().map_err(|_| 12);
        for position in 0..2 {
            let mut tested: [Box<dyn UnderTest>; 2] = [Box::new(Port), Box::new(Port)];
            tested[position] = Made::boxed(wrong, Check::port_outcome);
            let told = run(&mut tested, 3, LEAST).unwrap_err();
            assert!(
                told.contains(": made's line 1 is `refused 12 0 0 0`, due is `refused 13"),
                "{told}"
            );
        }
    }

    #[test]
    fn parts_by_the_first_tables_length_are_a_difference() {
        let told = difference(|morning| {
            by_order(morning, |morning, _| {
                let mut places = parts(morning, |length, orders| length / orders);
                places.derived[1] = places.derived[0];
                (places, morning.allowance)
            })
        });
        assert!(told.contains("the answers differ: "), "{told}");
        let told = difference(|morning| {
            by_order(morning, |morning, _| {
                let mut places = parts(morning, |length, orders| length / orders);
                places.records = [places.records[0]; 3];
                (places, morning.allowance)
            })
        });
        assert!(told.contains("the answers differ: "), "{told}");
    }

    #[test]
    fn a_remainder_that_an_order_gets_is_a_difference() {
        let told = difference(|morning| {
            by_order(morning, |morning, _| {
                (parts(morning, |length, orders| length.div_ceil(orders)), morning.allowance)
            })
        });
        assert!(told.contains("the answers differ: "), "{told}");
        let told = difference(|morning| {
            by_order(morning, |morning, index| {
                let last = index + 1 == morning.orders.len();
                let part = |length: usize, orders: usize| match last {
                    true => length / orders + length % orders,
                    false => length / orders,
                };
                (parts(morning, part), morning.allowance)
            })
        });
        assert!(told.contains("the answers differ: "), "{told}");
    }

    #[test]
    fn lengths_judged_on_the_whole_tables_are_a_difference() {
        let told = difference(|morning| {
            by_order(morning, |morning, _| (morning.places, morning.allowance))
        });
        assert!(told.contains("the answers differ: "), "{told}");
    }

    #[test]
    fn an_allowance_that_is_shared_is_a_difference() {
        let told = difference(|morning| {
            by_order(morning, |morning, _| {
                let orders = morning.orders.len();
                (
                    parts(morning, |length, orders| length / orders),
                    morning.allowance / orders as u32,
                )
            })
        });
        assert!(told.contains("the answers differ: "), "{told}");
    }

    #[test]
    fn a_refused_order_that_ends_the_morning_is_a_difference() {
        let told = difference(|morning| {
            let mut outcomes = morning.port_outcomes()?;
            let refused = outcomes.iter().position(|o| matches!(o.ending, Ending::Refused(_)));
            outcomes.truncate(refused.map_or(outcomes.len(), |index| index + 1));
            Ok(outcomes)
        });
        assert!(told.contains(" is nothing, due is `"), "{told}");
    }

    #[test]
    fn a_number_of_orders_judged_after_the_book_is_a_difference() {
        let told = difference(|morning| {
            let one = Morning { orders: vec![Default::default()], ..morning.clone() };
            match (morning.port_outcomes(), one.port_outcomes()?.remove(0).ending) {
                (Err(_), Ending::Refused(number)) if number < 7 => Err(number),
                (outcomes, _) => outcomes,
            }
        });
        assert!(told.contains("due is `refused 13 0 0 0`"), "{told}");
    }

    #[test]
    fn an_answer_that_is_not_the_single_checks_is_a_difference() {
        let check = |check: &Check| {
            let mut outcome = check.port_outcome();
            if let Some(record) = outcome.records.last_mut() {
                record.struck ^= 1;
            }
            outcome
        };
        let mut made = [Made::boxed(Morning::port_outcomes, check)];
        let told = run(&mut made, 3, LEAST).unwrap_err();
        assert!(told.contains(": made's answers to single checks differ: line "), "{told}");
    }

    #[test]
    fn an_ending_that_was_not_seen_is_named() {
        assert_eq!(Tally::default().has_all().unwrap_err(), "no morning with `can` was seen");
        let mut tally = Tally { endings: [1; ENDINGS.len()], ..Tally::default() };
        assert_eq!(tally.has_all(), Ok(()));
        tally.endings[10] = 0;
        assert_eq!(tally.has_all().unwrap_err(), "no morning with `refused 9` was seen");
    }

    #[test]
    fn a_program_is_asked_no_morning() {
        let program = Program { path: "./no-such-program".to_string(), page: None };
        assert!(run(&mut [Box::new(program)], 1, LEAST).unwrap().is_none());
    }

    #[test]
    fn mornings_go_with_the_books() {
        assert_eq!([beside(0), beside(400), beside(4000)], [400, 400, 4000]);
    }
}
