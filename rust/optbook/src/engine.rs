//! The proved check, that of a morning's orders together, that of every setting of open options, and that
//! of sites that share one allowance, through the wrapper: tables are lent to the library, and what it
//! wrote into them is taken out. Each answer here is the library's own, and so are the page of a check, the
//! joint book of two, what the planner can force where buyer and planner take turns, and the cheapest plant.

#[cfg(feature = "proved")]
use crate::lent::Lent;
use crate::prices::Prices;
use crate::{Book, Order, Rule};
#[cfg(feature = "proved")]
use optcheck::Terminal;
pub use optcheck::{Answer, Kind, Page, Quote, Response, Turns, Verdict, PRICE, REBATE};

/// What a check may use, each check of a morning, and each setting of open options: branchings, and
/// places for derived rules. Sites share the branchings, and each has so many places.
#[derive(Clone, Copy, Debug, PartialEq, Eq)]
pub struct Limits {
    pub allowance: u32,
    pub places: usize,
}

/// A record: the decided options, those of them that are fitted, and the struck ones.
#[derive(Clone, Copy, Debug, PartialEq, Eq)]
pub struct Record {
    pub decided: u64,
    pub fitted: u64,
    pub struck: u64,
}

/// What a check ends with: the answer, and the derived rules and records that it counts.
#[derive(Clone, Debug, PartialEq, Eq)]
pub struct Checked {
    pub answer: Answer,
    pub derived: Vec<Rule>,
    pub records: Vec<Record>,
}

/// What a morning ends with: what each order's check does, in turn, or the number of the refusal of all
/// of them.
pub type Morning = Result<Vec<Checked>, u32>;

/// The settings of open options that were tried: what they give together, the last of them, as the set
/// of the open options that are fitted, and what its check ended with.
#[derive(Clone, Debug, PartialEq, Eq)]
pub struct Tried {
    pub verdict: Verdict,
    pub setting: u64,
    pub last: Checked,
}

/// What an order with open options ends with: the settings that were tried, or the number of the
/// refusal.
pub type Undecided = Result<Tried, u32>;

/// A site that was served: the branchings that it might use, and what its check ended with.
#[derive(Clone, Debug, PartialEq, Eq)]
pub struct Served {
    pub allowance: u32,
    pub checked: Checked,
}

/// What sites end with: each site that was served, in turn, or the number of the refusal of all of them.
pub type Sites = Result<Vec<Served>, u32>;

/// What two books are joined to: the joint book, or the number of the refusal.
pub type Joined = Result<Book, u32>;

/// What turns on the free options end with: whether the planner can force a plant, and the answers; or the
/// number of the refusal.
pub type Settled = Result<Turns, u32>;

/// What the question for the cheapest plant ends with: the quote, or none where no choice keeps book and order;
/// or the number of the refusal.
pub type Quoted = Result<Option<Quote>, u32>;

/// The proved library is not linked.
#[derive(Clone, Copy, Debug, PartialEq, Eq)]
pub struct Unlinked;

/// The limits of the proved program.
impl Default for Limits {
    fn default() -> Limits {
        Limits { allowance: 1_000_000, places: 2048 }
    }
}

impl Checked {
    /// A refusal: nothing is counted.
    pub fn refused(number: u32) -> Checked {
        let answer = Answer { kind: Kind::Refused, number, branchings: 0, derived: 0, records: 0 };
        Checked { answer, derived: Vec::new(), records: Vec::new() }
    }
}

/// The proved check of an order against a book.
#[cfg(feature = "proved")]
pub fn check(book: &Book, order: Order, limits: Limits) -> Result<Checked, Unlinked> {
    let mut lent = Lent::new(1, limits.places);
    let bytes = crate::bytes::book_bytes(book);
    let answer = optcheck::check(&bytes, order, limits.allowance, lent.tables());
    Ok(lent.checked(0, answer))
}

/// The proved checks of a morning's orders against one book, each with these limits.
#[cfg(feature = "proved")]
pub fn morning(book: &Book, orders: &[Order], limits: Limits) -> Result<Morning, Unlinked> {
    let mut lent = Lent::new(orders.len(), limits.places);
    let bytes = crate::bytes::book_bytes(book);
    let answers = optcheck::morning(&bytes, orders, limits.allowance, lent.tables());
    let checked = |answers: Vec<Answer>| {
        answers.into_iter().enumerate().map(|(index, answer)| lent.checked(index, answer)).collect()
    };
    Ok(answers.map(checked))
}

/// The proved checks of an order with every setting of its open options, each with these limits.
#[cfg(feature = "proved")]
pub fn undecided(
    book: &Book,
    order: Order,
    open: u64,
    limits: Limits,
) -> Result<Undecided, Unlinked> {
    let mut lent = Lent::new(1, limits.places);
    let bytes = crate::bytes::book_bytes(book);
    let tried = optcheck::undecided(&bytes, order, open, limits.allowance, lent.tables());
    Ok(tried.map(|optcheck::Tried { verdict, setting, last }| {
        let last = lent.checked(0, last);
        Tried { verdict, setting, last }
    }))
}

/// The proved checks of sites' orders against one book, in turn. They share the allowance of these limits,
/// and each has the places.
#[cfg(feature = "proved")]
pub fn sites(book: &Book, orders: &[Order], limits: Limits) -> Result<Sites, Unlinked> {
    let bytes = crate::bytes::book_bytes(book);
    let serve = |terminal: &mut Terminal, order: Order| {
        let mut lent = Lent::new(1, limits.places);
        let allowance = terminal.allowance();
        let answer = terminal.serve(&bytes, order, lent.tables());
        Served { allowance, checked: lent.checked(0, answer) }
    };
    let opened = Terminal::open(orders.len(), limits.allowance);
    Ok(opened.map(|mut terminal| orders.iter().map(|&order| serve(&mut terminal, order)).collect()))
}

/// The page of the proved check of an order against a book, with this many branchings and as many places
/// for derived rules as there may be.
#[cfg(feature = "proved")]
pub fn page(book: &Book, order: Order, allowance: u32) -> Result<Page, Unlinked> {
    Ok(optcheck::page(&crate::bytes::book_bytes(book), order, allowance))
}

/// The proved joint book of two books, of which the options of these pairs are the same thing: two bytes a
/// pair, the number of an option of the first book and of one of the second.
#[cfg(feature = "proved")]
pub fn join(first: &Book, second: &Book, pairs: &[u8]) -> Result<Joined, Unlinked> {
    let [first, second] = [first, second].map(crate::bytes::book_bytes);
    let mut bytes = vec![0; optcheck::BOOK_BYTES];
    let joined = optcheck::join(&first, &second, pairs, &mut bytes);
    let book = |length| crate::bytes::read_book(&bytes[..length]).expect("a joint book is a book");
    Ok(joined.map(book))
}

/// What the planner can force, proved, where buyer and planner settle the free options in turns.
#[cfg(feature = "proved")]
pub fn turns(book: &Book, order: Order) -> Result<Settled, Unlinked> {
    Ok(optcheck::turns(&crate::bytes::book_bytes(book), order))
}

/// The cheapest plant, proved, at these prices.
#[cfg(feature = "proved")]
pub fn cheapest(book: &Book, order: Order, prices: &Prices) -> Result<Quoted, Unlinked> {
    let Prices { cents, rebate } = prices;
    Ok(optcheck::cheapest(&crate::bytes::book_bytes(book), order, cents, *rebate))
}

/// Without the library nothing is checked.
#[cfg(not(feature = "proved"))]
pub fn check(_: &Book, _: Order, _: Limits) -> Result<Checked, Unlinked> {
    Err(Unlinked)
}

/// Without the library nothing is checked.
#[cfg(not(feature = "proved"))]
pub fn morning(_: &Book, _: &[Order], _: Limits) -> Result<Morning, Unlinked> {
    Err(Unlinked)
}

/// Without the library nothing is checked.
#[cfg(not(feature = "proved"))]
pub fn undecided(_: &Book, _: Order, _: u64, _: Limits) -> Result<Undecided, Unlinked> {
    Err(Unlinked)
}

/// Without the library nothing is checked.
#[cfg(not(feature = "proved"))]
pub fn sites(_: &Book, _: &[Order], _: Limits) -> Result<Sites, Unlinked> {
    Err(Unlinked)
}

/// Without the library nothing is checked.
#[cfg(not(feature = "proved"))]
pub fn page(_: &Book, _: Order, _: u32) -> Result<Page, Unlinked> {
    Err(Unlinked)
}

/// Without the library nothing is joined.
#[cfg(not(feature = "proved"))]
pub fn join(_: &Book, _: &Book, _: &[u8]) -> Result<Joined, Unlinked> {
    Err(Unlinked)
}

/// Without the library nothing is said of turns.
#[cfg(not(feature = "proved"))]
pub fn turns(_: &Book, _: Order) -> Result<Settled, Unlinked> {
    Err(Unlinked)
}

/// Without the library no plant is the cheapest.
#[cfg(not(feature = "proved"))]
pub fn cheapest(_: &Book, _: Order, _: &Prices) -> Result<Quoted, Unlinked> {
    Err(Unlinked)
}
