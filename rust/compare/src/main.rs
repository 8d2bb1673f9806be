//! `compare`: the checker beside the port, outside solvers and other people's outcomes. It ends with
//! 0 where all agree, with 1 at a difference or where something is missing, and with 2 on a bad
//! command line.

mod allowances;
mod bench;
mod cheapest;
mod choices;
mod desks;
mod differential;
mod fields;
mod framed;
mod free;
mod hex;
mod in_process;
mod joins;
mod kinds;
#[cfg(any(test, feature = "proved"))]
mod lent;
#[cfg(feature = "proved")]
mod library;
mod mornings;
mod optimiser;
mod orders;
mod outside;
mod pages;
mod question;
mod random;
mod refused;
mod renumberings;
mod shapes;
mod small;
mod tallies;
mod terminals;
mod turns;
mod undecided;
mod under_test;
mod vectors;
mod worst;

use optimiser::Optimiser;
use outside::Solver;
use std::time::Instant;
use std::{env, fs, process};
use under_test::{Port, Program, UnderTest};

const USAGE: &str = "\
compare differential [--program PATH [--page-program PATH]] [--seed S] [--books N] [--solver NAME]
    generated books, mornings, open options, sites, pages, desks, joined books, turns, cheapest plants,
    renumbered books and worst books through the checker and the port, each verdict on a book also by an outside solver
compare vectors FILE... [--program PATH [--page-program PATH]]
    the cases of these files through the checker and the port
compare allowances
    small books with every allowance and number of places through the checker and the port
compare tallies [--seed S] [--books N]
    generated books through the engine's own source, every tally counted anew after each change
compare framed FILE... FOLDER
    the programs' cases of these files as the test program `vectors` reads and writes them, in FOLDER
compare bench [--seed S] [--solver NAME]
    the same books through the checker, the port and outside solvers, mornings, open options and sites
    beside single checks, turns, cheapest plants, and worst books, as tables

The checker is the program at PATH, with the one that prints pages, or, where compare is built with the
feature `proved`, the library.
The outside solver is the first installed of minisat, cadical and picosat, if NAME does not say; of turns
it is depqbf, and of cheapest plants clasp, where they are installed.
";

const SEED: u64 = 1;
const BOOKS: usize = 4000;

/// What the lent tables hold before a run; for mornings, open options, sites, pages, desks and renumbered books,
/// its complement in turn with it; for joined books, turns and cheapest plants both, one after the other.
const RUBBISH: u64 = 0xa5a5_5a5a_a5a5_5a5a;

/// The words of the command line after the subcommand.
#[derive(Default)]
struct Words {
    files: Vec<String>,
    program: Option<String>,
    page_program: Option<String>,
    seed: Option<u64>,
    books: Option<usize>,
    solver: Option<String>,
}

fn main() {
    let mut words = env::args().skip(1);
    let command = words.next().unwrap_or_default();
    let Some(words) = read_words(words) else { usage() };
    if words.files.is_empty() == ["vectors", "framed"].contains(&command.as_str()) {
        usage();
    }
    let done = match command.as_str() {
        "differential" => differential(&words),
        "vectors" => vectors(&words),
        "framed" => framed(&words),
        "allowances" => allowances(),
        "bench" => bench(&words),
        "tallies" => tallies(&words),
        _ => usage(),
    };
    if let Err(what) = done {
        eprintln!("compare {command}: {what}");
        process::exit(1);
    }
}

fn usage() -> ! {
    eprint!("{USAGE}");
    process::exit(2);
}

fn read_words(mut words: impl Iterator<Item = String>) -> Option<Words> {
    let mut read = Words::default();
    while let Some(word) = words.next() {
        match word.as_str() {
            "--program" => read.program = Some(words.next()?),
            "--page-program" => read.page_program = Some(words.next()?),
            "--seed" => read.seed = Some(words.next()?.parse().ok()?),
            "--books" => read.books = Some(words.next()?.parse().ok()?),
            "--solver" => read.solver = Some(words.next()?),
            _ if word.starts_with('-') => return None,
            _ => read.files.push(word),
        }
    }
    // The program that prints pages goes with the one that prints outcomes.
    (read.program.is_some() || read.page_program.is_none()).then_some(read)
}

fn differential(words: &Words) -> Result<(), String> {
    let mut tested = [under_test(words, RUBBISH)?, under_test(words, !RUBBISH)?];
    let solver = Solver::find(words.solver.as_deref())?;
    let (seed, books) = (words.seed.unwrap_or(SEED), words.books.unwrap_or(BOOKS));
    let (name, by) = (tested[0].name(), solver.name());
    println!("{books} books of seed {seed}: {name}, the port, {by}, all choices of small books");
    let start = Instant::now();
    let outside = |order, book: &_| solver.can_be_built(order, book);
    let tally = differential::run(tested[0].as_mut(), &outside, seed, books)?;
    print!("{}", tally.told());
    if let Some(tally) = mornings::run(&mut tested, seed, mornings::beside(books))? {
        print!("{}", tally.told());
    }
    if let Some(tally) = undecided::run(&mut tested, seed, undecided::beside(books))? {
        print!("{}", tally.told());
    }
    if let Some(tally) = terminals::run(&mut tested, seed, terminals::beside(books))? {
        print!("{}", tally.told());
    }
    if let Some(tally) = pages::run(&mut tested, seed, pages::beside(books))? {
        print!("{}", tally.told());
    }
    if let Some(tally) = desks::run(&mut tested, seed, desks::beside(books))? {
        print!("{}", tally.told());
    }
    let kept = |clauses: &str| solver.can_be_kept(clauses);
    if let Some(tally) = joins::run(tested[0].as_mut(), &kept, seed, joins::beside(books))? {
        print!("{}", tally.told());
    }
    let depqbf = Solver::quantified();
    let outside: Result<turns::Outside, String> = match &depqbf {
        Ok(solver) => Ok(&|clauses| solver.can_be_kept(clauses)),
        Err(missing) => Err(missing.clone()),
    };
    if let Some(tally) = turns::run(tested[0].as_mut(), outside, seed, turns::beside(books))? {
        print!("{}", tally.told());
    }
    let clasp = Optimiser::find();
    let outside: Result<cheapest::Outside, String> = match &clasp {
        Ok(optimiser) => Ok(&|constraints| optimiser.least(constraints)),
        Err(missing) => Err(missing.clone()),
    };
    if let Some(tally) = cheapest::run(tested[0].as_mut(), outside, seed, cheapest::beside(books))?
    {
        print!("{}", tally.told());
    }
    if let Some(tally) = renumberings::run(&mut tested, seed, renumberings::beside(books))? {
        print!("{}", tally.told());
    }
    let outside = |order, book: &_| solver.can_be_built(order, book);
    if let Some(tally) = worst::run(&mut tested, &outside, seed, worst::beside(books))? {
        print!("{}", tally.told());
    }
    println!("no difference, in {:.1} s", start.elapsed().as_secs_f64());
    Ok(())
}

/// The last line has the counts of all files together; a case that differs is an error.
fn vectors(words: &Words) -> Result<(), String> {
    let mut tested = [under_test(words, RUBBISH)?, Box::new(Port)];
    let (mut agree, mut differ) = (0, Vec::new());
    for file in &words.files {
        let text = fs::read_to_string(file).map_err(|error| format!("{file}: {error}"))?;
        let (score, told) =
            vectors::run(&mut tested, &text).map_err(|what| format!("{file}: {what}"))?;
        print!("{file}: {} agree, {} differ\n{told}", score.agree, score.differ.len());
        agree += score.agree;
        differ.extend(score.differ);
    }
    let checkers = tested.map(|checker| checker.name()).join(", ");
    println!("{checkers}: {agree} cases agree, {} differ", differ.len());
    match differ.is_empty() {
        true => Ok(()),
        false => Err(format!("cases that differ: {}", differ.join(", "))),
    }
}

/// Writes the files `stdin` and `stdout` of the test program.
fn framed(words: &Words) -> Result<(), String> {
    let Some((folder, files @ [_, ..])) = words.files.split_last() else { usage() };
    let mut framed = framed::Framed::default();
    for file in files {
        let text = fs::read_to_string(file).map_err(|error| format!("{file}: {error}"))?;
        framed.add(&text).map_err(|what| format!("{file}: {what}"))?;
    }
    fs::write(format!("{folder}/stdin"), framed.stdin)
        .and_then(|()| fs::write(format!("{folder}/stdout"), framed.stdout))
        .map_err(|error| format!("{folder}: {error}"))
}

fn allowances() -> Result<(), String> {
    library(RUBBISH)?;
    let make = |rubbish| library(rubbish).expect("the library is there");
    let tried = allowances::run(&make)?;
    println!(
        "{} small books, {} pairs of allowances and {} lengths of tables, each with two kinds of \
         rubbish: no difference",
        tried.books, tried.pairs, tried.lengths
    );
    Ok(())
}

fn tallies(words: &Words) -> Result<(), String> {
    let (seed, books) = (words.seed.unwrap_or(SEED), words.books.unwrap_or(BOOKS));
    tallies::tell_the_book_at_a_panic();
    let start = Instant::now();
    let tally = tallies::run(seed, books)?;
    print!("{}", tally.told());
    println!("{}, in {:.1} s", tally.summary(seed), start.elapsed().as_secs_f64());
    Ok(())
}

fn bench(words: &Words) -> Result<(), String> {
    let solver = Solver::find(words.solver.as_deref());
    if let (Err(missing), Some(_)) = (&solver, &words.solver) {
        return Err(missing.clone());
    }
    let seed = words.seed.unwrap_or(SEED);
    bench::run(solver, in_process::all(), Solver::quantified(), Optimiser::find(), seed)
}

/// The program that was given, else the library, with this rubbish in the tables that it is lent.
fn under_test(words: &Words, rubbish: u64) -> Result<Box<dyn UnderTest>, String> {
    match &words.program {
        Some(path) => {
            Ok(Box::new(Program { path: path.clone(), page: words.page_program.clone() }))
        }
        None => library(rubbish),
    }
}

/// The library, with this rubbish in the tables that it is lent.
#[cfg(feature = "proved")]
fn library(rubbish: u64) -> Result<Box<dyn UnderTest>, String> {
    Ok(Box::new(library::Library { rubbish }))
}

#[cfg(not(feature = "proved"))]
fn library(_: u64) -> Result<Box<dyn UnderTest>, String> {
    Err("no checker to compare: give --program PATH, or build with the feature `proved`"
        .to_string())
}
