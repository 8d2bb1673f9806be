//! A morning's orders in one call of the library beside the same orders in a call each, with the parts
//! of the same tables, in turns. The rows, and how they are measured, are those of sites too (sites.rs).

use super::{in_micros, median, repeats};
use crate::random::Random;
use crate::shapes;
use optbook::bytes::book_bytes;
use optbook::Order;
use std::time::{Duration, Instant};

/// The orders of a morning, and the books of a row.
const ORDERS: usize = 16;
const BOOKS: usize = 10;

/// A morning: the book's bytes, and the orders.
pub type Morning = (Vec<u8>, Vec<Order>);

/// Mornings with books of one kind.
pub struct Row {
    name: String,
    mornings: Vec<Morning>,
}

/// The medians of a row, each for all its mornings together.
pub struct Times {
    branchings: u64,
    together: Duration,
    singly: Duration,
}

/// The branchings of a morning, all its orders together.
pub type Way = Box<dyn FnMut(&Morning) -> u64>;

/// The two ways through the library.
pub struct Ways {
    pub together: Way,
    pub singly: Way,
}

/// Measures every row and prints the table, where there is a library.
pub fn run(seed: u64) -> Result<(), String> {
    let Some(mut ways) = ways() else { return Ok(()) };
    table(&format!("morning of {ORDERS} orders"), rows(seed, ORDERS), &mut ways)
}

/// Measures these rows and prints the table under this name.
pub fn table(name: &str, rows: Vec<Row>, ways: &mut Ways) -> Result<(), String> {
    println!(
        "\n| {name} | books | branchings | together µs | singly µs | together / singly |\n\
         |---|---:|---:|---:|---:|---:|"
    );
    for row in rows {
        println!("{}", line(&row, &measure(&row, ways)?));
    }
    Ok(())
}

/// The rows, from the seed, with so many orders each: they are like those of the option books of the first
/// table.
pub fn rows(seed: u64, orders: usize) -> Vec<Row> {
    let mut random = Random::new(seed);
    let mut morning = |options| {
        let book = book_bytes(&shapes::option_book(&mut random, options));
        let orders = (0..orders).map(|_| shapes::order(&mut random, options, 12)).collect();
        (book, orders)
    };
    let row = |options| Row {
        name: format!("option book, {options} options"),
        mornings: (0..BOOKS).map(|_| morning(options)).collect(),
    };
    [16, 32, 64].map(row).into()
}

/// The medians of repeated runs, in turns. Both ways must make the same branchings.
fn measure(row: &Row, ways: &mut Ways) -> Result<Times, String> {
    let Ways { together, singly } = ways;
    let (once, branchings) = timed(row, together);
    if timed(row, singly).1 != branchings {
        return Err(format!("{}: single checks make other branchings", row.name));
    }
    let (mut together_times, mut singly_times) = (Vec::new(), Vec::new());
    for _ in 0..repeats(once) {
        together_times.push(timed(row, together).0);
        singly_times.push(timed(row, singly).0);
    }
    let [together, singly] =
        [together_times, singly_times].map(|times| median(times).expect("at least one run"));
    Ok(Times { branchings, together, singly })
}

/// The time of one run of all mornings of a row, and its branchings.
fn timed(row: &Row, way: &mut Way) -> (Duration, u64) {
    let start = Instant::now();
    let branchings = row.mornings.iter().map(way).sum();
    (start.elapsed(), branchings)
}

/// One line of the table: everything a morning, on the mean of the row's mornings.
fn line(row: &Row, times: &Times) -> String {
    let Times { branchings, together, singly } = *times;
    let mornings = row.mornings.len();
    format!(
        "| {} | {mornings} | {:.0} | {:.1} | {:.1} | {:.2} |",
        row.name,
        branchings as f64 / mornings as f64,
        in_micros(together, mornings),
        in_micros(singly, mornings),
        together.as_secs_f64() / singly.as_secs_f64()
    )
}

#[cfg(not(feature = "proved"))]
fn ways() -> Option<Ways> {
    None
}

#[cfg(feature = "proved")]
fn ways() -> Option<Ways> {
    use optcheck::{part, Tables};
    use port::{PROGRAM_ALLOWANCE, PROGRAM_PLACES, PROGRAM_RECORD_PLACES};
    use std::hint::black_box;

    /// The five tables of a morning. An order's parts have the program's lengths.
    fn lent() -> [Vec<u64>; 5] {
        let [derived, records] = [PROGRAM_PLACES, PROGRAM_RECORD_PLACES];
        [derived, derived, records, records, records].map(|places| vec![0; ORDERS * places])
    }

    let (mut of_together, mut of_singly) = (lent(), lent());
    Some(Ways {
        together: Box::new(move |(book, orders)| {
            let [pos, neg, decided, trues, redundant] = &mut of_together;
            let tables = Tables { pos, neg, decided, trues, redundant };
            let answers = optcheck::morning(book, orders, PROGRAM_ALLOWANCE, tables);
            let answers = black_box(answers).expect("a morning that is served");
            answers.iter().map(|answer| u64::from(answer.branchings)).sum()
        }),
        singly: Box::new(move |(book, orders)| {
            let mut branchings = 0;
            for (index, &order) in orders.iter().enumerate() {
                let [pos, neg, decided, trues, redundant] = of_singly.each_mut().map(|table| {
                    let part = part(table.len(), orders.len(), index);
                    &mut table[part]
                });
                let tables = Tables { pos, neg, decided, trues, redundant };
                let answer = optcheck::check(book, order, PROGRAM_ALLOWANCE, tables);
                branchings += u64::from(black_box(answer).branchings);
            }
            branchings
        }),
    })
}

#[cfg(test)]
mod tests {
    use super::*;

    fn small_row() -> Row {
        let mut rows = rows(1, ORDERS);
        let mut row = rows.remove(0);
        row.mornings.truncate(2);
        row
    }

    #[test]
    fn each_row_has_mornings_of_16_orders() {
        let rows = rows(1, ORDERS);
        assert_eq!(rows.len(), 3);
        for row in rows {
            assert_eq!(row.mornings.len(), BOOKS);
            assert!(row.mornings.iter().all(|(_, orders)| orders.len() == 16));
        }
    }

    #[test]
    fn a_line_tells_the_mean_of_its_mornings() {
        let [together, singly] = [3, 4].map(Duration::from_millis);
        let due = "| option book, 16 options | 2 | 4 | 1500.0 | 2000.0 | 0.75 |";
        assert_eq!(line(&small_row(), &Times { branchings: 8, together, singly }), due);
    }

    #[test]
    fn both_ways_make_the_same_branchings() {
        let way = |branchings: u64| -> Way { Box::new(move |_| branchings) };
        let row = small_row();
        let times = measure(&row, &mut Ways { together: way(3), singly: way(3) }).unwrap();
        assert_eq!(times.branchings, 6);
        let told = measure(&row, &mut Ways { together: way(3), singly: way(4) }).err();
        assert_eq!(told.unwrap(), "option book, 16 options: single checks make other branchings");
    }
}
