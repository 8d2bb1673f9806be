//! Books of all rules that name every option, which take the most that a book of so many options can, in random
//! sequences, through the library and the port.

use super::{in_micros, input, measure, Row, Times};
use crate::random::Random;
use optbook::worst::{all_rules, needs, MOST_OPTIONS};
use optbook::Order;
use std::time::Duration;

/// The books of the largest row. Each row before has twice as many, so that all take about as long.
const BOOKS: usize = 4;

/// Measures every row and prints the table.
pub fn run(seed: u64) -> Result<(), String> {
    println!(
        "\n| worst book, options | books | rules | branchings, derived rules | library µs a run | \
         library µs a branching | port µs a run | library / port |\n|---:|{}",
        "---:|".repeat(7)
    );
    let mut random = Random::new(seed);
    for options in 1..=MOST_OPTIONS {
        let row = row(&mut random, options);
        println!("{}", line(options, row.inputs.len(), &measure(&row, &[], None)?)?);
    }
    Ok(())
}

/// All rules of so many options, in random sequences.
fn row(random: &mut Random, options: usize) -> Row {
    let books = BOOKS << (MOST_OPTIONS - options);
    let shuffled = (0..books).map(|_| {
        let mut book = all_rules(options);
        random.shuffle(&mut book.rules);
        input(Order::default(), book)
    });
    Row { name: options.to_string(), inputs: shuffled.collect() }
}

/// One line of the table: everything a book. The branchings that were counted are those that are due.
fn line(options: usize, books: usize, times: &Times) -> Result<String, String> {
    let needs = needs(options);
    if times.branchings != (needs * books) as u64 {
        return Err(format!(
            "{} branchings of {books} worst books of {options} options",
            times.branchings
        ));
    }
    let a_run = |time: Duration| in_micros(time, books);
    let library = match times.library {
        Some(library) => [
            format!("{:.2}", a_run(library)),
            format!("{:.2}", a_run(library) / needs as f64),
            format!("{:.2}", library.as_secs_f64() / times.port.as_secs_f64()),
        ],
        None => ["-", "-", "-"].map(str::to_string),
    };
    let [library_run, branching, ratio] = library;
    let port = a_run(times.port);
    Ok(format!(
        "| {options} | {books} | {} | {needs} | {library_run} | {branching} | {port:.2} | {ratio} |",
        1 << options
    ))
}

#[cfg(test)]
mod tests {
    use super::*;

    fn times(branchings: u64, library: Option<Duration>) -> Times {
        Times {
            branchings,
            library,
            port: Duration::from_micros(40),
            in_process: vec![],
            solver: None,
        }
    }

    #[test]
    fn each_row_has_half_the_books_of_the_one_before() {
        let mut random = Random::new(1);
        assert_eq!(row(&mut random, MOST_OPTIONS).inputs.len(), BOOKS);
        let (four, five) = (row(&mut random, 4), row(&mut random, 5));
        assert_eq!(four.inputs.len(), 2 * five.inputs.len());
        assert_ne!(four.inputs[0].bytes, four.inputs[1].bytes);
    }

    #[test]
    fn a_line_tells_the_mean_of_its_books() {
        let library = Some(Duration::from_micros(30));
        assert_eq!(
            line(2, 2, &times(6, library)).unwrap(),
            "| 2 | 2 | 4 | 3 | 15.00 | 5.00 | 20.00 | 0.75 |"
        );
        assert_eq!(line(2, 2, &times(6, None)).unwrap(), "| 2 | 2 | 4 | 3 | - | - | 20.00 | - |");
    }

    #[test]
    fn another_count_is_told() {
        assert_eq!(
            line(2, 2, &times(5, None)),
            Err("5 branchings of 2 worst books of 2 options".to_string())
        );
    }
}
