//! Free options that are settled in turns, through the library and the port, in turns, and through the process
//! of an outside solver of quantified clauses.

use super::{in_micros, median, repeats, SOLVER_REPEATS};
use crate::choices::keeps_all;
use crate::outside::Solver;
use crate::question::{Settled, Turns};
use crate::random::Random;
use crate::shapes;
use crate::turns::quantified;
use optbook::bytes::book_bytes;
use optbook::{first, option, Book, Order, Rule, OPTIONS, RULES};
use std::hint::black_box;
use std::iter::repeat_with;
use std::time::{Duration, Instant};

/// The most options that may be free.
const FREE: usize = 12;

/// The options of a small book, those of them that are free, and the books of a row.
const SMALL: (usize, usize) = (12, 6);
const BOOKS: usize = 10;

/// Questions of one kind.
struct Row {
    name: String,
    questions: Vec<Turns>,
}

/// The medians of a row, each for all its questions together, and how many of them can be forced.
struct Times {
    forced: usize,
    library: Duration,
    port: Duration,
    solver: Option<Duration>,
}

/// A way to answer a question.
type Way<'a> = &'a mut dyn FnMut(&Turns) -> Settled;

/// Measures every row and prints the table, where there is a library. A solver that is missing is named above it.
pub fn run(solver: Result<Solver, String>, seed: u64) -> Result<(), String> {
    let Some(mut library) = library() else { return Ok(()) };
    println!("\n{}", heading(&solver));
    let solver = solver.ok();
    for row in rows(seed) {
        let times = measure(&row, &mut library, solver.as_ref())?;
        println!("{}", line(&row, &times));
    }
    Ok(())
}

fn heading(solver: &Result<Solver, String>) -> String {
    let columns =
        "turns | books | options | free | rules | forced | library ms | port ms | library / port";
    let numbers = "---:|".repeat(8);
    match solver {
        Ok(solver) => format!("| {columns} | {} process ms |\n|---|{numbers}---:|", solver.name()),
        Err(missing) => format!("({missing})\n\n| {columns} |\n|---|{numbers}"),
    }
}

/// One line of the table: everything a question, on the mean of the row's questions.
fn line(row: &Row, times: &Times) -> String {
    let questions = row.questions.len();
    let book = |place: usize| usize::from(row.questions[0].book[place]);
    let rules = |turns: &Turns| turns.book.len() / 16;
    let millis = |time| format!("{:.4}", in_micros(time, questions) / 1000.0);
    let mut cells = vec![
        row.name.clone(),
        questions.to_string(),
        book(0).to_string(),
        row.questions[0].free().len().to_string(),
        (row.questions.iter().map(rules).sum::<usize>() / questions).to_string(),
        times.forced.to_string(),
        millis(times.library),
        millis(times.port),
        format!("{:.2}", times.library.as_secs_f64() / times.port.as_secs_f64()),
    ];
    cells.extend(times.solver.map(millis));
    format!("| {} |", cells.join(" | "))
}

/// The rows, from the seed.
fn rows(seed: u64) -> Vec<Row> {
    let mut random = Random::new(seed);
    let random = &mut random;
    let all_free = |book: Book| Turns { book: book_bytes(&book), order: Order::default() };
    let mut small = |forced: bool| {
        let questions = repeat_with(|| small(random)).flatten();
        questions.filter(|turns| is_forced(&turns.port_settled()) == forced).take(BOOKS).collect()
    };
    let [small_forced, small_open] = [true, false].map(&mut small);
    let three = (0..3).map(|_| all_free(shapes::three_entry_rules(random, FREE, RULES))).collect();
    let twelve = (0..3).map(|_| all_free(long_rules(random))).collect();
    let largest = (0..3).map(|_| {
        let book = book_bytes(&shapes::largest(random));
        Turns { book, order: all_but(&shapes::distinct(random, OPTIONS, FREE), OPTIONS) }
    });
    let largest = largest.collect();
    let apart: Vec<usize> = (1..=FREE).map(|number| 5 * number - 1).collect();
    let together: Vec<usize> = (0..FREE).collect();
    let mut tried =
        |free: &[usize], options, forced| vec![every_play(random, free, options, forced)];
    let row = |name: &str, questions| Row { name: name.to_string(), questions };
    vec![
        row("option book", small_forced),
        row("option book", small_open),
        row("rules of three entries", three),
        row("rules of twelve entries", twelve),
        row("every play is tried", tried(&together, FREE, true)),
        row("every play is tried", tried(&together, FREE, false)),
        row("every play is tried", tried(&apart, OPTIONS, true)),
        row("largest", largest),
    ]
}

/// A small option book, and an order with half of its options that some choice keeps, where there is one.
fn small(random: &mut Random) -> Option<Turns> {
    let (options, free) = SMALL;
    let book = shapes::option_book(random, options);
    let kept: Vec<u64> = (0..1 << options).filter(|&choice| keeps_all(&book, choice)).collect();
    if kept.is_empty() {
        return None;
    }
    let choice = kept[random.below(kept.len())];
    let wished = first(options) & !shapes::union(&shapes::distinct(random, options, free));
    let order = Order { wanted: wished & choice, unwanted: wished & !choice, standard: 0 };
    Some(Turns { book: book_bytes(&book), order })
}

fn is_forced(settled: &Settled) -> bool {
    matches!(settled, Ok(answer) if answer.forced)
}

/// An order with all options of a book but these, by index, wanted and unwanted in turn.
pub fn all_but(free: &[usize], options: usize) -> Order {
    let free = shapes::union(free);
    let wished = (0..options).map(option).filter(|option| free & option == 0);
    let wanted: u64 = wished.step_by(2).sum();
    Order { wanted, unwanted: first(options) & !(free | wanted), standard: 0 }
}

/// As many rules as there may be, each of all options: a rule is broken by one choice alone.
fn long_rules(random: &mut Random) -> Book {
    let mut book = shapes::all_rules(FREE);
    random.shuffle(&mut book.rules);
    book.rules.truncate(RULES);
    book
}

/// A book of these free options, by index, and an order with all others, for which every play has to be tried
/// where leaving out is tried first, and fitting only where it can matter: the planner has to fit each of his
/// options, unless a later option is left out, which are six rules. Where he leaves one out, he loses when the
/// buyer fits all later ones, which is tried last. The rules before them each forbid one play that they forbid
/// too, and all have an entry of every wished option, which the order makes false. Where the planner shall not
/// be able to force it, not all options may be fitted.
fn every_play(random: &mut Random, free: &[usize], options: usize, forced: bool) -> Turns {
    let order = all_but(free, options);
    let of_order = Rule { fitted: order.unwanted, left_out: order.wanted };
    let all = shapes::union(free);
    let mut last: Vec<Rule> = (1..FREE)
        .step_by(2)
        .map(|place| Rule {
            fitted: option(free[place]),
            left_out: shapes::union(&free[place + 1..]),
        })
        .collect();
    if !forced {
        last.push(Rule { fitted: 0, left_out: all });
    }
    let choices = (0..1u64 << FREE).map(|play| {
        let fitted = (0..FREE).filter(|place| play >> place & 1 == 1);
        fitted.map(|place| option(free[place])).sum::<u64>()
    });
    let lost = choices.filter(|choice| last.iter().any(|rule| !rule.is_kept_by(*choice)));
    let mut rules: Vec<Rule> =
        lost.map(|choice| Rule { fitted: all & !choice, left_out: choice }).collect();
    random.shuffle(&mut rules);
    rules.truncate(RULES - last.len());
    rules.extend(last);
    for rule in &mut rules {
        rule.fitted |= of_order.fitted;
        rule.left_out |= of_order.left_out;
    }
    Turns { book: book_bytes(&Book { options, rules }), order }
}

/// The medians of repeated runs, the library and the port in turns, and then the solver's process. All must say
/// the same.
fn measure(row: &Row, library: Way, solver: Option<&Solver>) -> Result<Times, String> {
    let mut port = |turns: &Turns| black_box(turns.port_settled());
    let (once, due) = timed(row, &mut port);
    if timed(row, library).1 != due {
        return Err(format!("{}: the library's answer is not the port's", row.name));
    }
    let mut times = [const { Vec::new() }; 2];
    for _ in 0..repeats(once) {
        times[0].push(timed(row, library).0);
        times[1].push(timed(row, &mut port).0);
    }
    let [library, port] = times.map(|times| median(times).expect("at least one run"));
    let forced: Vec<bool> = due.iter().map(is_forced).collect();
    let solver = solver.map(|solver| solver_time(row, solver, &forced)).transpose()?;
    let forced = forced.into_iter().filter(|forced| *forced).count();
    Ok(Times { forced, library, port, solver })
}

/// The time of one run of all questions of a row, and the answers.
fn timed(row: &Row, way: Way) -> (Duration, Vec<Settled>) {
    let start = Instant::now();
    let settled = row.questions.iter().map(|turns| way(black_box(turns))).collect();
    (start.elapsed(), settled)
}

/// The median time of the solver's process on all questions of a row, whose verdicts must be these.
fn solver_time(row: &Row, solver: &Solver, forced: &[bool]) -> Result<Duration, String> {
    let mut sum = Duration::ZERO;
    for (turns, forced) in row.questions.iter().zip(forced) {
        solver.write(&quantified(turns)?)?;
        let mut times = Vec::new();
        for _ in 0..SOLVER_REPEATS {
            let start = Instant::now();
            if solver.run()? != *forced {
                let (row, solver) = (&row.name, solver.name());
                return Err(format!("{row}: {solver} has another verdict than the port"));
            }
            times.push(start.elapsed());
        }
        sum += median(times).expect("at least one run");
    }
    Ok(sum)
}

#[cfg(not(feature = "proved"))]
fn library() -> Option<fn(&Turns) -> Settled> {
    None
}

#[cfg(feature = "proved")]
fn library() -> Option<fn(&Turns) -> Settled> {
    use port::Response;

    fn answer(response: Option<optcheck::Response>) -> Option<Response> {
        response.map(|response| match response {
            optcheck::Response::Out => Response::Out,
            optcheck::Response::Fitted => Response::Fitted,
        })
    }

    Some(|turns| {
        let optcheck::Turns { forced, to_out, to_fitted } =
            black_box(optcheck::turns(&turns.book, turns.order))?;
        Ok(port::Turns { forced, to_out: answer(to_out), to_fitted: answer(to_fitted) })
    })
}

#[cfg(test)]
mod tests {
    use super::*;
    use port::Response;

    #[test]
    fn rows_have_the_options_and_rules_that_they_name() {
        let rows = rows(1);
        let sizes = rows.iter().map(|row| {
            let turns = &row.questions[0];
            (turns.book[0], turns.free().len(), turns.book.len() / 16)
        });
        let sizes: Vec<(u8, usize, usize)> = sizes.collect();
        let of_small = [0, 1].map(|row| (sizes[row].0, sizes[row].1));
        assert_eq!(of_small, [(12, 6), (12, 6)]);
        let (all, few) = ((12, 12, 1024), (64, 12, 1024));
        assert_eq!(sizes[2..], [all, all, all, all, few, few]);
        let forced = rows.iter().map(|row| {
            let settled = row.questions.iter().map(Turns::port_settled);
            settled.filter(is_forced).count()
        });
        let forced: Vec<usize> = forced.collect();
        assert_eq!((forced[0], forced[1]), (BOOKS, 0));
        assert_eq!((forced[4], forced[5], forced[6]), (1, 0, 1));
    }

    /// So many plays are tried where leaving out is tried first, and the next choice only where it can matter.
    fn tried(book: &Book, free: &[u64], fitted: u64, plays: &mut usize) -> bool {
        let Some((option, rest)) = free.split_first() else {
            *plays += 1;
            return book.rules.iter().all(|rule| rule.is_kept_by(fitted));
        };
        let is_buyers = free.len().is_multiple_of(2);
        let out = tried(book, rest, fitted, plays);
        match out == is_buyers {
            true => tried(book, rest, fitted | option, plays),
            false => out,
        }
    }

    #[test]
    fn every_play_has_to_be_tried() {
        let mut random = Random::new(2);
        let free: Vec<usize> = (0..FREE).map(|place| 3 * place + 1).collect();
        for forced in [true, false] {
            let turns = every_play(&mut random, &free, 40, forced);
            let input = optbook::bytes::input_bytes(turns.order, &turns.book);
            let (order, book) = optbook::bytes::read_input(&input).unwrap();
            let mut plays = 0;
            assert_eq!(tried(&book, &turns.free(), order.wanted, &mut plays), forced);
            assert_eq!(plays, 1 << FREE);
            let fitted = Some(Response::Fitted);
            let to_fitted = if forced { fitted } else { None };
            let due = port::Turns { forced, to_out: fitted, to_fitted };
            assert_eq!(turns.port_settled(), Ok(due));
        }
    }

    fn small_row() -> Row {
        let book = book_bytes(&Book { options: 3, rules: vec![Rule { fitted: 2, left_out: 0 }] });
        let question = |unwanted| {
            let order = Order { wanted: 0, unwanted, standard: 0 };
            Turns { book: book.clone(), order }
        };
        Row { name: "small".to_string(), questions: vec![question(4), question(1)] }
    }

    #[test]
    fn a_line_tells_the_mean_of_its_questions() {
        let [library, port, solver] = [1, 4, 6].map(Duration::from_millis);
        let times = Times { forced: 1, library, port, solver: Some(solver) };
        let due = "| small | 2 | 3 | 2 | 1 | 1 | 0.5000 | 2.0000 | 0.25 | 3.0000 |";
        assert_eq!(line(&small_row(), &times), due);
        let due = "| small | 2 | 3 | 2 | 1 | 1 | 0.5000 | 2.0000 | 0.25 |";
        assert_eq!(line(&small_row(), &Times { solver: None, ..times }), due);
    }

    #[test]
    fn a_missing_solver_has_no_column_and_is_named() {
        let heading = heading(&Err("no depqbf".to_string()));
        assert!(heading.starts_with("(no depqbf)\n\n| turns | books | "), "{heading}");
        let columns = |line: &str| line.matches('|').count();
        let lines: Vec<&str> = heading.lines().skip(2).collect();
        assert_eq!([columns(lines[0]), columns(lines[1])], [10, 10]);
    }

    #[test]
    fn all_say_the_same() {
        let row = small_row();
        let mut right = |turns: &Turns| turns.port_settled();
        assert_eq!(measure(&row, &mut right, None).unwrap().forced, 1);
        let mut wrong = |_: &Turns| Err(16);
        let told = measure(&row, &mut wrong, None).err().unwrap();
        assert_eq!(told, "small: the library's answer is not the port's");
        let no_verdict = Solver::find(Some("true")).unwrap();
        assert!(measure(&row, &mut right, Some(&no_verdict)).is_err());
    }
}
