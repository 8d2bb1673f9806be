//! Cheapest plants through the library and the port's branches, in turns, and through the process of an outside
//! optimiser.

use super::turns::all_but;
use super::{in_micros, median, repeats, SOLVER_REPEATS};
use crate::cheapest::for_the_total;
use crate::optimiser::Optimiser;
use crate::question::{Cheapest, Check, Quoted};
use crate::random::Random;
use crate::shapes::{self, distinct, union};
use optbook::bytes::{book_bytes, input_bytes};
use optbook::{first, option, Book, Order, Rule, OPTIONS, RULES};
use std::hint::black_box;
use std::iter::repeat_with;
use std::time::{Duration, Instant};

/// The most options that may be free.
const FREE: usize = 20;

/// The books of a row, and the highest price in it.
const BOOKS: usize = 10;
const PRICE: usize = 1_000_000;

/// Questions of one kind.
struct Row {
    name: String,
    questions: Vec<Cheapest>,
}

/// The medians of a row, each for all its questions together, and how many of them can be built.
struct Times {
    can: usize,
    library: Duration,
    port: Duration,
    optimiser: Option<Duration>,
}

/// A way to answer a question.
type Way<'a> = &'a mut dyn FnMut(&Cheapest) -> Quoted;

/// Measures every row and prints the table, where there is a library. An optimiser that is missing is named above
/// it.
pub fn run(optimiser: Result<Optimiser, String>, seed: u64) -> Result<(), String> {
    let Some(mut library) = library() else { return Ok(()) };
    println!("\n{}", heading(&optimiser));
    let optimiser = optimiser.ok();
    for row in rows(seed) {
        let times = measure(&row, &mut library, optimiser.as_ref())?;
        println!("{}", line(&row, &times));
    }
    Ok(())
}

fn heading(optimiser: &Result<Optimiser, String>) -> String {
    let columns = "cheapest plant | books | options | free | rules | can | library ms | port ms | \
                   library / port";
    let numbers = "---:|".repeat(8);
    match optimiser {
        Ok(optimiser) => {
            format!("| {columns} | {} process ms |\n|---|{numbers}---:|", optimiser.name())
        }
        Err(missing) => format!("({missing})\n\n| {columns} |\n|---|{numbers}"),
    }
}

/// One line of the table: everything a question, on the mean of the row's questions.
fn line(row: &Row, times: &Times) -> String {
    let questions = row.questions.len();
    let rules = |asked: &Cheapest| asked.book.len() / 16;
    let millis = |time| format!("{:.4}", in_micros(time, questions) / 1000.0);
    let mut cells = vec![
        row.name.clone(),
        questions.to_string(),
        row.questions[0].options().to_string(),
        row.questions[0].free().len().to_string(),
        (row.questions.iter().map(rules).sum::<usize>() / questions).to_string(),
        times.can.to_string(),
        millis(times.library),
        millis(times.port),
        format!("{:.2}", times.library.as_secs_f64() / times.port.as_secs_f64()),
    ];
    cells.extend(times.optimiser.map(millis));
    format!("| {} |", cells.join(" | "))
}

/// The rows, from the seed.
fn rows(seed: u64) -> Vec<Row> {
    let mut random = Random::new(seed);
    let random = &mut random;
    let row = |name: &str, questions| Row { name: name.to_string(), questions };
    let mut rows: Vec<Row> = [(12, 12), (16, 16), (FREE, FREE), (OPTIONS, FREE)]
        .map(|(options, free)| {
            let questions = repeat_with(|| of_option_book(random, options, free)).flatten();
            row("option book", questions.take(BOOKS).collect())
        })
        .into();
    let three = (0..BOOKS).map(|_| {
        let book = book_bytes(&shapes::three_entries(random, FREE));
        Cheapest { book, order: Order::default(), prices: any_prices(random), rebate: 0 }
    });
    rows.push(row("rules of three entries", three.collect()));
    let apart: Vec<usize> = (1..=FREE).map(|number| 3 * number - 1).collect();
    let mut late = |name: &str, of: fn(&[usize]) -> Late| {
        let question = late(random, &apart, of(&apart));
        rows.push(row(name, vec![question]));
    };
    late("cut late, the lowest option last", |free| at_one_end(free[0]));
    late("cut late, the highest option last", |free| at_one_end(free[free.len() - 1]));
    late("cut late, either one last", at_both_ends);
    late("all options forced, equal prices", all_forced);
    late("most choices kept, no prices", most_kept);
    rows
}

/// An option book and an order with all but so many of its options, which follow a choice that keeps the book,
/// where there is one.
fn of_option_book(random: &mut Random, options: usize, free: usize) -> Option<Cheapest> {
    let book = book_bytes(&shapes::option_book(random, options));
    let choice = some_choice(random, &book, options)?;
    let wished = first(options) & !union(&distinct(random, options, free));
    let order = Order { wanted: wished & choice, unwanted: wished & !choice, standard: 0 };
    Some(Cheapest { book, order, prices: any_prices(random), rebate: 0 })
}

fn any_prices(random: &mut Random) -> Vec<u64> {
    (0..OPTIONS).map(|_| random.below(PRICE + 1) as u64).collect()
}

/// A choice that keeps a book: option by option one of both ways is wished, or the other where nothing can be
/// built with it.
fn some_choice(random: &mut Random, book: &[u8], options: usize) -> Option<u64> {
    let can = |order: Order| {
        let check = Check::of_program(input_bytes(order, book));
        check.port_outcome().ending == port::CAN
    };
    let mut order = Order::default();
    for option in (0..options).map(option) {
        let wanted = Order { wanted: order.wanted | option, ..order };
        let unwanted = Order { unwanted: order.unwanted | option, ..order };
        let [one, other] = match random.chance(1, 2) {
            true => [wanted, unwanted],
            false => [unwanted, wanted],
        };
        order = match can(one) {
            true => one,
            false => other,
        };
    }
    can(order).then_some(order.wanted)
}

/// A book whose rules are broken late, or by few choices: rules that come again and again, the last ones, and
/// the price of every free option.
struct Late {
    again: Vec<Rule>,
    last: Vec<Rule>,
    price: u64,
}

/// As many rules as there may be over these free options, by index, and an order with all others. Each rule has
/// entries of wished options too, which the order makes false, others in every rule.
fn late(random: &mut Random, free: &[usize], Late { again, last, price }: Late) -> Cheapest {
    let order = all_but(free, OPTIONS);
    let again = again.iter().cycle().take(RULES - last.len());
    let with_wishes = |rule: &Rule| {
        let of_wishes = random.word();
        Rule {
            fitted: rule.fitted | (order.unwanted & of_wishes),
            left_out: rule.left_out | (order.wanted & of_wishes),
        }
    };
    let rules = again.chain(&last).map(with_wishes).collect();
    let book = book_bytes(&Book { options: OPTIONS, rules });
    Cheapest { book, order, prices: vec![price; OPTIONS], rebate: 0 }
}

fn either(options: &[usize]) -> Rule {
    Rule { fitted: union(options), left_out: 0 }
}

fn without(options: &[usize]) -> Rule {
    Rule { fitted: 0, left_out: union(options) }
}

/// All rules ask for one option, and the last one forbids it: where it is settled last, every choice is tried.
fn at_one_end(end: usize) -> Late {
    Late { again: vec![either(&[end])], last: vec![without(&[end])], price: 1 }
}

/// The rules ask for the lowest option with the highest, and for it without the highest, and the last two forbid
/// both: whichever of the two is settled last, every choice is tried.
fn at_both_ends(free: &[usize]) -> Late {
    let [low, high] = [free[0], free[free.len() - 1]];
    let with =
        |needed: &[usize], other: &[usize]| Rule { fitted: union(needed), left_out: union(other) };
    Late {
        again: vec![either(&[low, high]), with(&[low], &[high])],
        last: vec![with(&[high], &[low]), without(&[low, high])],
        price: 1,
    }
}

/// The lowest and the highest option have to be fitted, and with both of them each other one: one choice is kept,
/// of which every part costs less.
fn all_forced(free: &[usize]) -> Late {
    let [low, high] = [free[0], free[free.len() - 1]];
    let others = &free[1..free.len() - 1];
    let forced =
        others.iter().map(|index| Rule { left_out: union(&[low, high]), ..either(&[*index]) });
    let last = forced.chain([either(&[low]), either(&[high])]).collect();
    Late { again: vec![either(&[low, high])], last, price: 1 }
}

/// The lowest or the highest option has to be fitted, which three of four choices do, and nothing costs anything.
fn most_kept(free: &[usize]) -> Late {
    let ends = [free[0], free[free.len() - 1]];
    Late { again: vec![either(&ends)], last: Vec::new(), price: 0 }
}

/// The medians of repeated runs, the library and the port's branches in turns, and then the optimiser's process.
/// All must say the same, and the same as the port that tries all choices.
fn measure(row: &Row, library: Way, optimiser: Option<&Optimiser>) -> Result<Times, String> {
    let due: Vec<Quoted> = row.questions.iter().map(Cheapest::port_quoted).collect();
    let mut port = |asked: &Cheapest| black_box(asked.by_branches());
    let (once, by_branches) = timed(row, &mut port);
    if by_branches != due {
        return Err(format!(
            "{}: the port's branches give another answer than all choices",
            row.name
        ));
    }
    if timed(row, library).1 != due {
        return Err(format!("{}: the library's answer is not the port's", row.name));
    }
    let mut times = [const { Vec::new() }; 2];
    for _ in 0..repeats(once) {
        times[0].push(timed(row, library).0);
        times[1].push(timed(row, &mut port).0);
    }
    let [library, port] = times.map(|times| median(times).expect("at least one run"));
    let totals = due.iter().map(|quoted| quoted.ok().flatten().map(|quote| quote.total));
    let totals: Vec<Option<u64>> = totals.collect();
    let optimiser =
        optimiser.map(|optimiser| optimiser_time(row, optimiser, &totals)).transpose()?;
    let can = totals.iter().flatten().count();
    Ok(Times { can, library, port, optimiser })
}

/// The time of one run of all questions of a row, and the answers.
fn timed(row: &Row, way: Way) -> (Duration, Vec<Quoted>) {
    let start = Instant::now();
    let quoted = row.questions.iter().map(|asked| way(black_box(asked))).collect();
    (start.elapsed(), quoted)
}

/// The median time of the optimiser's process on all questions of a row, whose totals must be these.
fn optimiser_time(
    row: &Row,
    optimiser: &Optimiser,
    totals: &[Option<u64>],
) -> Result<Duration, String> {
    let mut sum = Duration::ZERO;
    for (asked, total) in row.questions.iter().zip(totals) {
        let book = asked.whole_book().ok_or("a book that is refused")?;
        optimiser.write(&for_the_total(asked, &book))?;
        let mut times = Vec::new();
        for _ in 0..SOLVER_REPEATS {
            let start = Instant::now();
            if optimiser.run()? != *total {
                let (row, optimiser) = (&row.name, optimiser.name());
                return Err(format!("{row}: {optimiser} has another total than the port"));
            }
            times.push(start.elapsed());
        }
        sum += median(times).expect("at least one run");
    }
    Ok(sum)
}

#[cfg(not(feature = "proved"))]
fn library() -> Option<fn(&Cheapest) -> Quoted> {
    None
}

#[cfg(feature = "proved")]
fn library() -> Option<fn(&Cheapest) -> Quoted> {
    Some(|Cheapest { book, order, prices, rebate }| {
        let quote = black_box(optcheck::cheapest(book, *order, prices, *rebate))?;
        Ok(quote.map(|optcheck::Quote { total, due, choice }| port::Quote { total, due, choice }))
    })
}

#[cfg(test)]
mod tests {
    use super::*;

    #[test]
    fn rows_have_the_options_and_rules_that_they_name() {
        let rows = rows(1);
        let sizes = rows.iter().map(|row| {
            let asked = &row.questions[0];
            (asked.options(), asked.free().len(), asked.book.len() / 16)
        });
        let sizes: Vec<(usize, usize, usize)> = sizes.collect();
        let of_books = [0, 1, 2, 3].map(|row| (sizes[row].0, sizes[row].1));
        assert_eq!(of_books, [(12, 12), (16, 16), (20, 20), (64, 20)]);
        assert_eq!(sizes[4], (20, 20, 85));
        assert_eq!(sizes[5..], [(64, 20, 1024); 5]);
        for row in &rows[..4] {
            let can = |asked: &Cheapest| matches!(asked.by_branches(), Ok(Some(_)));
            assert!(row.questions.len() == BOOKS && row.questions.iter().all(can));
        }
    }

    /// So many choices are held to the rules where these free options are settled one after the other, and a
    /// branch ends as soon as a rule is broken.
    fn tried(book: &Book, order: Order, free: &[u64]) -> usize {
        let Order { wanted, unwanted, .. } = order;
        let is_broken = |rule: &Rule| rule.fitted & !unwanted == 0 && rule.left_out & !wanted == 0;
        if free.is_empty() || book.rules.iter().any(is_broken) {
            return usize::from(free.is_empty());
        }
        let out = Order { unwanted: unwanted | free[0], ..order };
        let fitted = Order { wanted: wanted | free[0], ..order };
        tried(book, out, &free[1..]) + tried(book, fitted, &free[1..])
    }

    /// Of eight free options, from the lowest up and from the highest down.
    #[test]
    fn every_choice_has_to_be_tried() {
        let mut random = Random::new(2);
        let free: Vec<usize> = (0..8).map(|place| 5 * place + 2).collect();
        let mut of = |of: Late| {
            let asked = late(&mut random, &free, of);
            let (book, mut free) = (asked.whole_book().unwrap(), asked.free());
            let up = tried(&book, asked.order, &free);
            free.reverse();
            let quote = asked.by_branches().unwrap();
            assert_eq!(asked.port_quoted(), Ok(quote));
            (up, tried(&book, asked.order, &free), quote.map(|quote| quote.choice))
        };
        let all = union(&free);
        let wanted = all_but(&free, OPTIONS).wanted;
        assert_eq!(of(at_one_end(free[0])), (0, 256, None));
        assert_eq!(of(at_one_end(free[7])), (256, 0, None));
        assert_eq!(of(at_both_ends(&free)), (256, 256, None));
        assert_eq!(of(all_forced(&free)), (128, 128, Some(wanted | all)));
        assert_eq!(of(most_kept(&free)), (256, 256, Some(wanted | option(free[0]))));
    }

    fn small_row() -> Row {
        let book = book_bytes(&Book { options: 3, rules: vec![Rule { fitted: 2, left_out: 0 }] });
        let question = |unwanted| {
            let order = Order { wanted: 0, unwanted, standard: 0 };
            Cheapest { book: book.clone(), order, prices: vec![1; 3], rebate: 0 }
        };
        Row { name: "small".to_string(), questions: vec![question(4), question(2)] }
    }

    #[test]
    fn a_line_tells_the_mean_of_its_questions() {
        let [library, port, optimiser] = [1, 4, 6].map(Duration::from_millis);
        let times = Times { can: 1, library, port, optimiser: Some(optimiser) };
        let due = "| small | 2 | 3 | 2 | 1 | 1 | 0.5000 | 2.0000 | 0.25 | 3.0000 |";
        assert_eq!(line(&small_row(), &times), due);
        let due = "| small | 2 | 3 | 2 | 1 | 1 | 0.5000 | 2.0000 | 0.25 |";
        assert_eq!(line(&small_row(), &Times { optimiser: None, ..times }), due);
    }

    #[test]
    fn a_missing_optimiser_has_no_column_and_is_named() {
        let heading = heading(&Err("no clasp".to_string()));
        assert!(heading.starts_with("(no clasp)\n\n| cheapest plant | books | "), "{heading}");
        let columns = |line: &str| line.matches('|').count();
        let lines: Vec<&str> = heading.lines().skip(2).collect();
        assert_eq!([columns(lines[0]), columns(lines[1])], [10, 10]);
    }

    #[test]
    fn all_say_the_same() {
        let row = small_row();
        let mut right = |asked: &Cheapest| asked.port_quoted();
        assert_eq!(measure(&row, &mut right, None).unwrap().can, 1);
        let mut wrong = |_: &Cheapest| Ok(None);
        let told = measure(&row, &mut wrong, None).err().unwrap();
        assert_eq!(told, "small: the library's answer is not the port's");
        let Ok(optimiser) = Optimiser::find() else { return };
        assert!(measure(&row, &mut right, Some(&optimiser)).unwrap().optimiser.is_some());
        let told = optimiser_time(&row, &optimiser, &[Some(1), Some(1)]).unwrap_err();
        assert_eq!(told, "small: clasp has another total than the port");
    }
}
