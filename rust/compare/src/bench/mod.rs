//! The same books through the library, the port, the outside solvers whose libraries are there and an
//! outside solver's process, in one run and in turns, as a table; mornings through the library as a
//! second one, open options as a third, sites as a fourth, turns of buyer and planner as a fifth, cheapest
//! plants as a sixth, and worst books as a seventh. Times are medians of repeated runs; ratios hold across machines, times do not.

mod cheapest;
mod morning;
mod open;
mod sites;
mod turns;
mod worst;

use crate::in_process::{Clauses, InProcess};
use crate::optimiser::Optimiser;
use crate::outside::Solver;
use crate::random::Random;
use crate::shapes;
use optbook::bytes::book_bytes;
use optbook::{Book, Order};
use port::{Ending, Outcome, Places, Request};
use port::{PROGRAM_ALLOWANCE, PROGRAM_PLACES, PROGRAM_RECORD_PLACES};
use std::hint::black_box;
use std::iter::repeat_with;
use std::time::{Duration, Instant};

/// A row's runs take about this long in each checker.
const ROW_TIME: Duration = Duration::from_millis(1500);
/// Repeated runs of a row: at least and at most.
const REPEATS: (usize, usize) = (5, 501);
/// Branchings of a long run: at least and at most.
const LONG: (u32, u32) = (200, 5000);
/// Repeated runs of a row through the outside solver's process.
const SOLVER_REPEATS: usize = 5;

/// A book and an order as they were made, the book's bytes, and the clauses of both.
struct Input {
    order: Order,
    book: Book,
    bytes: Vec<u8>,
    clauses: Clauses,
}

/// Books of one kind.
struct Row {
    name: String,
    inputs: Vec<Input>,
}

/// The medians of a row, each for all its books together.
struct Times {
    branchings: u64,
    library: Option<Duration>,
    port: Duration,
    in_process: Vec<Duration>,
    solver: Option<Duration>,
}

/// Measures every row and prints the tables. Of the two solvers the second is that of quantified clauses.
pub fn run(
    solver: Result<Solver, String>,
    in_process: Vec<Result<InProcess, String>>,
    quantified: Result<Solver, String>,
    optimiser: Result<Optimiser, String>,
    seed: u64,
) -> Result<(), String> {
    println!("{}", heading(&solver, &in_process));
    let solver = solver.ok();
    let in_process: Vec<InProcess> = in_process.into_iter().flatten().collect();
    for row in rows(seed) {
        let times = measure(&row, &in_process, solver.as_ref())?;
        println!("{}", line(&row, &times));
    }
    if let Some(solver) = &solver {
        let empty =
            Row { name: String::new(), inputs: vec![input(Order::default(), Book::default())] };
        let start = in_micros(solver_time(solver, &empty)?, 1);
        println!("\nAn empty book through {}'s process takes {start:.0} µs.", solver.name());
    }
    println!(
        "Tables were not cleared between runs: the library's are lent once for all of them, and \
         the port makes its own for each."
    );
    morning::run(seed)?;
    open::run(seed)?;
    sites::run(seed)?;
    turns::run(quantified, seed)?;
    cheapest::run(optimiser, seed)?;
    worst::run(seed)
}

/// The head of the table, after a note on each solver that is missing.
fn heading(solver: &Result<Solver, String>, in_process: &[Result<InProcess, String>]) -> String {
    let mut notes = String::new();
    let mut columns = [
        "book",
        "books",
        "rules",
        "branchings",
        "library µs a run",
        "library µs a branching",
        "port µs a run",
        "port µs a branching",
        "library / port",
    ]
    .map(str::to_string)
    .to_vec();
    for solver in in_process {
        match solver {
            Ok(solver) => columns.push(format!("{} in process µs a run", solver.name())),
            Err(missing) => notes += &format!("({missing})\n\n"),
        }
    }
    let solver = match solver {
        Ok(solver) => solver.name(),
        Err(missing) => {
            notes += &format!("({missing})\n\n");
            "solver".to_string()
        }
    };
    columns.push(format!("{solver} process µs a run"));
    format!("{notes}| {} |\n|---|{}", columns.join(" | "), "---:|".repeat(columns.len() - 1))
}

/// One line of the table: everything a book, on the mean of the row's books.
fn line(row: &Row, times: &Times) -> String {
    let books = row.inputs.len();
    let rules: usize = row.inputs.iter().map(|input| input.book.rules.len()).sum();
    let branchings = times.branchings as f64 / books as f64;
    let a_run = |time: Option<Duration>| match time {
        Some(time) => format!("{:.1}", in_micros(time, books)),
        None => "-".to_string(),
    };
    let a_branching = |time: Option<Duration>| match time {
        Some(time) if branchings > 0.0 => format!("{:.2}", in_micros(time, books) / branchings),
        _ => "-".to_string(),
    };
    let ratio = times.library.map(|library| library.as_secs_f64() / times.port.as_secs_f64());
    let mut cells = vec![
        row.name.clone(),
        books.to_string(),
        (rules / books).to_string(),
        format!("{branchings:.0}"),
        a_run(times.library),
        a_branching(times.library),
        a_run(Some(times.port)),
        a_branching(Some(times.port)),
        ratio.map_or("-".to_string(), |ratio| format!("{ratio:.2}")),
    ];
    cells.extend(times.in_process.iter().map(|&time| a_run(Some(time))));
    cells.push(a_run(times.solver));
    format!("| {} |", cells.join(" | "))
}

fn in_micros(time: Duration, books: usize) -> f64 {
    time.as_secs_f64() * 1e6 / books as f64
}

/// The rows, from the seed.
fn rows(seed: u64) -> Vec<Row> {
    let mut random = Random::new(seed);
    let mut rows = Vec::new();
    for options in [16, 32, 48, 64] {
        let books = 20;
        rows.push(Row {
            name: format!("option book, {options} options"),
            inputs: (0..books).map(|_| option_book(&mut random, options)).collect(),
        });
    }
    for options in [20, 30, 40] {
        let books = 5;
        rows.push(Row {
            name: format!("three entries, {options} options"),
            inputs: (0..books)
                .map(|_| input(Order::default(), shapes::three_entries(&mut random, options)))
                .collect(),
        });
    }
    for options in 6..=10 {
        rows.push(Row {
            name: format!("all rules, {options} options"),
            inputs: vec![input(Order::default(), shapes::all_rules(options))],
        });
    }
    rows.push(Row {
        name: "largest, 64 options".to_string(),
        inputs: (0..3).map(|_| input(Order::default(), shapes::largest(&mut random))).collect(),
    });
    for options in [48, 64] {
        rows.push(Row {
            name: format!("option book, {options} options, long runs"),
            inputs: long_runs(&mut random, options, 20),
        });
    }
    rows
}

/// So many option books whose runs are long.
fn long_runs(random: &mut Random, options: usize, books: usize) -> Vec<Input> {
    let is_long = |input: &Input| (LONG.0..=LONG.1).contains(&run_port(input).branchings);
    repeat_with(|| option_book(random, options)).filter(is_long).take(books).collect()
}

fn option_book(random: &mut Random, options: usize) -> Input {
    let book = shapes::option_book(random, options);
    input(shapes::order(random, options, 12), book)
}

fn input(order: Order, book: Book) -> Input {
    Input { order, bytes: book_bytes(&book), clauses: Clauses::of(order, &book), book }
}

/// The medians of repeated runs: the library and the port in turns, then the solvers.
fn measure(row: &Row, in_process: &[InProcess], solver: Option<&Solver>) -> Result<Times, String> {
    for solver in in_process {
        agrees(row, solver)?;
    }
    let mut library = library();
    let mut port = |input: &Input| black_box(run_port(input)).branchings;
    let (once, branchings) = timed(row, &mut port);
    let repeats = repeats(once);
    let (mut library_times, mut port_times) = (Vec::new(), Vec::new());
    for _ in 0..repeats {
        if let Some(library) = &mut library {
            library_times.push(timed(row, library).0);
        }
        port_times.push(timed(row, &mut port).0);
    }
    Ok(Times {
        branchings,
        library: median(library_times),
        port: median(port_times).expect("at least one run"),
        in_process: in_process_times(in_process, row, repeats),
        solver: solver.map(|solver| solver_time(solver, row)).transpose()?,
    })
}

/// The solver's verdicts on a row's books are the port's, where that has one.
fn agrees(row: &Row, solver: &InProcess) -> Result<(), String> {
    for input in &row.inputs {
        let Ending::Verdict(due) = run_port(input).ending else { continue };
        if solver.can_be_built(&input.clauses)? != due {
            let (row, solver) = (&row.name, solver.name());
            return Err(format!("{row}: {solver} in process has another verdict than the port"));
        }
    }
    Ok(())
}

/// So many runs that a row takes its time.
fn repeats(once: Duration) -> usize {
    let fit = ROW_TIME.as_secs_f64() / once.as_secs_f64().max(1e-9);
    (fit as usize).clamp(REPEATS.0, REPEATS.1)
}

/// The time of one run of all books of a row, and its branchings.
fn timed(row: &Row, check: &mut dyn FnMut(&Input) -> u32) -> (Duration, u64) {
    let start = Instant::now();
    let branchings = row.inputs.iter().map(|input| u64::from(check(black_box(input)))).sum();
    (start.elapsed(), branchings)
}

fn run_port(input: &Input) -> Outcome {
    let Order { wanted, unwanted, standard } = input.order;
    port::check(&Request {
        book: &input.bytes,
        order: port::Order { wanted, unwanted, standard },
        places: Places::equal(PROGRAM_PLACES, PROGRAM_RECORD_PLACES),
        allowance: PROGRAM_ALLOWANCE,
    })
}

/// The median times of solvers in this process on all books of a row, in turns.
fn in_process_times(solvers: &[InProcess], row: &Row, repeats: usize) -> Vec<Duration> {
    let mut times = vec![Vec::new(); solvers.len()];
    for _ in 0..repeats {
        for (solver, times) in solvers.iter().zip(&mut times) {
            let mut solve = |input: &Input| {
                let _ = black_box(solver.can_be_built(&input.clauses));
                0 // A solver counts no branchings.
            };
            times.push(timed(row, &mut solve).0);
        }
    }
    times.into_iter().filter_map(median).collect()
}

/// The median time of the solver's process on all books of a row.
fn solver_time(solver: &Solver, row: &Row) -> Result<Duration, String> {
    let mut sum = Duration::ZERO;
    for input in &row.inputs {
        solver.hand_over(input.order, &input.book)?;
        let mut times = Vec::new();
        for _ in 0..SOLVER_REPEATS {
            let start = Instant::now();
            solver.run()?;
            times.push(start.elapsed());
        }
        sum += median(times).expect("at least one run");
    }
    Ok(sum)
}

/// The middle one of these times.
fn median(mut times: Vec<Duration>) -> Option<Duration> {
    times.sort();
    times.get(times.len() / 2).copied()
}

type Check = Box<dyn FnMut(&Input) -> u32>;

#[cfg(not(feature = "proved"))]
fn library() -> Option<Check> {
    None
}

#[cfg(feature = "proved")]
fn library() -> Option<Check> {
    let mut derived = [0; 2].map(|word| vec![word; PROGRAM_PLACES]);
    let mut records = [0; 3].map(|word| vec![word; PROGRAM_RECORD_PLACES]);
    Some(Box::new(move |input| {
        let [pos, neg] = &mut derived;
        let [decided, trues, redundant] = &mut records;
        let tables = optcheck::Tables { pos, neg, decided, trues, redundant };
        let answer = optcheck::check(&input.bytes, input.order, PROGRAM_ALLOWANCE, tables);
        black_box(answer).branchings
    }))
}

#[cfg(test)]
mod tests {
    use super::*;

    #[test]
    fn the_median_is_the_middle_one() {
        let times = [5, 1, 4].map(Duration::from_millis).to_vec();
        assert_eq!(median(times), Some(Duration::from_millis(4)));
        assert_eq!(median(Vec::new()), None);
    }

    #[test]
    fn long_runs_are_long() {
        let inputs = long_runs(&mut Random::new(3), 24, 2);
        assert_eq!(inputs.len(), 2);
        assert!(inputs.iter().all(|input| run_port(input).branchings >= LONG.0));
    }

    #[test]
    fn repeats_stay_in_their_bounds() {
        assert_eq!(repeats(Duration::from_secs(60)), REPEATS.0);
        assert_eq!(repeats(Duration::ZERO), REPEATS.1);
    }

    #[test]
    fn missing_solvers_are_told_before_the_table() {
        let in_process = [Err("no picosat in process".to_string())];
        let heading = heading(&Err("no outside solver".to_string()), &in_process);
        let due = "(no picosat in process)\n\n(no outside solver)\n\n| book | books | ";
        assert!(heading.starts_with(due), "{heading}");
        let last = " | library / port | solver process µs a run |\n|---|---:|";
        assert!(heading.contains(last), "{heading}");
    }

    #[test]
    fn a_line_tells_the_mean_of_its_books() {
        let name = "all rules".to_string();
        let two = (0..2).map(|_| input(Order::default(), shapes::all_rules(3))).collect();
        let ms = Duration::from_millis;
        let (library, port) = (Some(ms(8)), ms(4));
        let times = Times { branchings: 8, library, port, in_process: vec![ms(2)], solver: None };
        let due =
            "| all rules | 2 | 8 | 4 | 4000.0 | 1000.00 | 2000.0 | 500.00 | 2.00 | 1000.0 | - |";
        assert_eq!(line(&Row { name, inputs: two }, &times), due);
    }
}
