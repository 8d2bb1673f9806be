//! Every setting of ten open options in one call of the library beside the same settings in a call
//! each, with tables of the same lengths that are not cleared between the calls, and beside the port, in
//! turns.

use super::{in_micros, median, repeats};
use crate::question::Open;
use crate::random::Random;
use crate::shapes;
use optbook::bytes::book_bytes;
use optbook::{Order, OPTIONS};
use port::{Ending, Places, PROGRAM_ALLOWANCE, PROGRAM_PLACES, PROGRAM_RECORD_PLACES};
use std::iter::repeat_with;
use std::time::{Duration, Instant};

/// The open options of an order, and the books of a row.
const OPEN: usize = 10;
const BOOKS: usize = 5;

/// Branchings of a short check: on the mean of all settings at least, and of each at most.
const SHORT: (usize, u32) = (8, 60);

/// An order with open options, and the order with each setting of them.
struct Question {
    open: Open,
    settings: Vec<Order>,
}

/// Questions of one kind, with the branchings of all their settings.
struct Row {
    name: String,
    questions: Vec<Question>,
    branchings: usize,
}

/// The medians of a row, each for all its questions together.
struct Times {
    together: Duration,
    singly: Duration,
    port: Duration,
}

/// What trying all settings of a question gives: the verdict, and the last setting's three counts.
type Given = (String, [usize; 3]);

/// A way to try all settings of a question.
type Way = Box<dyn FnMut(&Question) -> Given>;

/// The ways: in one call of the library, in a call for each setting, and the port's.
struct Ways {
    together: Way,
    singly: Way,
    port: Way,
}

/// Measures every row and prints the table, where there is a library.
pub fn run(seed: u64) -> Result<(), String> {
    let Some(mut ways) = ways() else { return Ok(()) };
    println!(
        "\n| {OPEN} open options, {} settings | books | branchings a setting | together µs | singly \
         µs | together / singly | port µs |\n|---|---:|---:|---:|---:|---:|---:|",
        1 << OPEN
    );
    for row in rows(seed) {
        println!("{}", line(&row, &measure(&row, &mut ways)?));
    }
    Ok(())
}

/// The rows, from the seed: books like those of the first table, with short checks.
fn rows(seed: u64) -> Vec<Row> {
    let mut random = Random::new(seed);
    let questions = repeat_with(|| question(&mut random, OPTIONS));
    let short = questions.filter_map(|question| Some((short_branchings(&question)?, question)));
    let (branchings, questions): (Vec<usize>, Vec<Question>) = short.take(BOOKS).unzip();
    let name = format!("option book, {OPTIONS} options, short checks");
    vec![Row { name, questions, branchings: branchings.iter().sum() }]
}

/// A question on an option book of so many options.
fn question(random: &mut Random, options: usize) -> Question {
    let book = book_bytes(&shapes::option_book(random, options));
    let open = shapes::union(&shapes::distinct(random, options, OPEN));
    let Order { wanted, unwanted, .. } = shapes::order(random, options, 12);
    let order = Order { wanted: wanted & !open, unwanted: unwanted & !open, standard: 0 };
    let places = Places::equal(PROGRAM_PLACES, PROGRAM_RECORD_PLACES);
    let open = Open { book, order, open, places, allowance: PROGRAM_ALLOWANCE };
    let settings = open.settings().into_iter();
    let settings = settings.map(|setting| order.with_setting(open.open, setting)).collect();
    Question { open, settings }
}

/// The branchings of all settings together, where each check is short and has a verdict.
fn short_branchings(question: &Question) -> Option<usize> {
    let (least, most) = SHORT;
    let mut sum = 0;
    for setting in question.open.settings() {
        let check = question.open.singly(setting);
        let outcome = check.with_limits(check.places, most).port_outcome();
        let Ending::Verdict(_) = outcome.ending else { return None };
        sum += outcome.branchings as usize;
    }
    (sum >= least * question.settings.len()).then_some(sum)
}

/// The medians of repeated runs, in turns. All ways must give the same.
fn measure(row: &Row, ways: &mut Ways) -> Result<Times, String> {
    let Ways { together, singly, port } = ways;
    let (once, due) = timed(row, together);
    for (name, way) in [("single checks give", &mut *singly), ("the port gives", port)] {
        if timed(row, way).1 != due {
            return Err(format!("{}: {name} something else", row.name));
        }
    }
    let mut times = [const { Vec::new() }; 3];
    for _ in 0..repeats(once) {
        for (way, times) in [&mut *together, singly, port].into_iter().zip(&mut times) {
            times.push(timed(row, way).0);
        }
    }
    let [together, singly, port] = times.map(|times| median(times).expect("at least one run"));
    Ok(Times { together, singly, port })
}

/// The time of one run of all questions of a row, and what it gives.
fn timed(row: &Row, way: &mut Way) -> (Duration, Vec<Given>) {
    let start = Instant::now();
    let given = row.questions.iter().map(way).collect();
    (start.elapsed(), given)
}

/// One line of the table: everything a question, on the mean of the row's questions.
fn line(row: &Row, times: &Times) -> String {
    let Times { together, singly, port } = *times;
    let questions = row.questions.len();
    let settings: usize = row.questions.iter().map(|question| question.settings.len()).sum();
    format!(
        "| {} | {questions} | {:.0} | {:.0} | {:.0} | {:.2} | {:.0} |",
        row.name,
        row.branchings as f64 / settings as f64,
        in_micros(together, questions),
        in_micros(singly, questions),
        together.as_secs_f64() / singly.as_secs_f64(),
        in_micros(port, questions)
    )
}

#[cfg(not(feature = "proved"))]
fn ways() -> Option<Ways> {
    None
}

#[cfg(feature = "proved")]
fn ways() -> Option<Ways> {
    use optcheck::{Answer, Kind, Tables, Verdict};
    use std::hint::black_box;

    /// The five tables, of the program's lengths.
    fn lent() -> [Vec<u64>; 5] {
        let [derived, records] = [PROGRAM_PLACES, PROGRAM_RECORD_PLACES];
        [derived, derived, records, records, records].map(|places| vec![0; places])
    }

    fn tables(lent: &mut [Vec<u64>; 5]) -> Tables<'_> {
        let [pos, neg, decided, trues, redundant] = lent;
        Tables { pos, neg, decided, trues, redundant }
    }

    fn given(verdict: Verdict, last: Answer) -> Given {
        (format!("{verdict:?}"), [last.branchings as usize, last.derived, last.records])
    }

    let (mut of_together, mut of_singly) = (lent(), lent());
    Some(Ways {
        together: Box::new(move |Question { open, .. }| {
            let Open { book, order, open, allowance, .. } = open;
            let lent = tables(&mut of_together);
            let tried = optcheck::undecided(book, *order, *open, *allowance, lent);
            let tried = black_box(tried).expect("a question that is not refused");
            given(tried.verdict, tried.last)
        }),
        singly: Box::new(move |Question { open, settings }| {
            let (mut can, mut last) = (0, Answer::of_word(0));
            for &order in settings {
                let lent = tables(&mut of_singly);
                last = black_box(optcheck::check(&open.book, order, open.allowance, lent));
                can += usize::from(last.kind == Kind::Can);
            }
            let verdict = match can {
                0 => Verdict::Never,
                _ if can == settings.len() => Verdict::Always,
                _ => Verdict::Sometimes,
            };
            given(verdict, last)
        }),
        port: Box::new(|Question { open, .. }| {
            let tried = black_box(open.port_tried()).expect("a question that is not refused");
            let port::Outcome { branchings, derived, records, .. } = tried.last;
            (format!("{:?}", tried.verdict), [branchings as usize, derived.len(), records.len()])
        }),
    })
}

#[cfg(test)]
mod tests {
    use super::*;

    /// Two questions on small books, with 24 branchings.
    fn small_row() -> Row {
        let mut random = Random::new(1);
        let questions = repeat_with(|| question(&mut random, 12)).take(2).collect();
        Row { name: "option book, 12 options".to_string(), questions, branchings: 24 << OPEN }
    }

    #[test]
    fn each_check_of_a_row_is_a_short_one_with_a_branching() {
        let rows = rows(1);
        assert_eq!(rows.len(), 1);
        for Row { questions, branchings, .. } in rows {
            assert_eq!(questions.len(), BOOKS);
            assert!(questions.iter().all(|question| question.settings.len() == 1024));
            let mean = branchings / (BOOKS * 1024);
            assert!((SHORT.0..=SHORT.1 as usize).contains(&mean), "{mean}");
        }
    }

    #[test]
    fn a_line_tells_the_mean_of_its_questions() {
        let [together, singly, port] = [3, 4, 20].map(Duration::from_millis);
        let due = "| option book, 12 options | 2 | 12 | 1500 | 2000 | 0.75 | 10000 |";
        assert_eq!(line(&small_row(), &Times { together, singly, port }), due);
    }

    #[test]
    fn all_ways_give_the_same() {
        let way = |count: usize| -> Way { Box::new(move |_| ("Always".to_string(), [count; 3])) };
        let row = small_row();
        let mut ways = Ways { together: way(3), singly: way(3), port: way(3) };
        assert!(measure(&row, &mut ways).is_ok());
        let told = |ways: &mut Ways| measure(&row, ways).err().unwrap();
        ways.port = way(4);
        let due = |name: &str| format!("option book, 12 options: {name} something else");
        assert_eq!(told(&mut ways), due("the port gives"));
        ways.singly = way(4);
        assert_eq!(told(&mut ways), due("single checks give"));
    }
}
