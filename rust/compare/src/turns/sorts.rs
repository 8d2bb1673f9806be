//! What may come up where options are settled in turns, each by a name.

use crate::question::{forced_name, Settled, Turns};
use optbook::bytes::{input_bytes, read_input};
use optbook::{Book, Order, Rule, OPTIONS, RULES};
use port::Response;

/// So many options may be free.
const FREE: usize = 12;

/// A question and its answer, its free options, and its book where it is not refused.
pub struct Run<'a> {
    turns: &'a Turns,
    settled: &'a Settled,
    free: Vec<u64>,
    book: Option<Book>,
}

/// A name, and whether it comes up.
type Sort = (&'static str, fn(&Run) -> bool);

/// All of them, in the order in which they are told.
pub const SORTS: [Sort; 22] = [
    ("7 and too many free", |run| run.is_refused(7) && run.free.len() > FREE),
    ("8 and too many free", |run| run.is_refused(8) && run.free.len() > FREE),
    ("12 and too many free", |run| run.is_refused(12) && run.free.len() > FREE),
    ("a refused book and a bad order", |run| {
        matches!(run.settled, Err(1..=6)) && run.order().wanted & run.order().unwanted != 0
    }),
    ("no option", |run| run.is_of(|book| book.options == 0)),
    ("64 options", |run| run.is_of(|book| book.options == OPTIONS)),
    ("all options free", |run| {
        run.is_of(|book| book.options > 1 && book.options == run.free.len())
    }),
    ("option 64 free", |run| run.is_of(|_| run.free.contains(&(1 << 63)))),
    ("free options apart", |run| {
        run.is_of(|_| run.free.windows(2).any(|two| two[0] << 1 != two[1]))
    }),
    ("standard alone", |run| run.is_of(|_| run.standard_alone() != 0)),
    ("standard and wanted", |run| run.is_of(|_| run.order().standard & run.order().wanted != 0)),
    ("standard and unwanted", |run| run.is_of(|_| run.standard_unwanted() != 0)),
    ("too many with the standard ones", |run| run.has_too_many_with(run.standard_alone())),
    ("too many with the unwanted standard ones", |run| {
        run.has_too_many_with(run.standard_unwanted())
    }),
    ("both answers serve", |run| run.has_two_answers()),
    ("no rule", |run| run.is_of(|book| book.rules.is_empty())),
    ("the empty rule", |run| run.has_rule(|rule| options(rule) == 0)),
    ("1,024 rules and forced", |run| run.is_forced(true) && run.is_of(is_full)),
    ("1,024 rules and open", |run| run.is_forced(false) && run.is_of(is_full)),
    ("a rule that the order breaks", |run| {
        run.has_rule(|rule| {
            options(rule) != 0 && options(rule) & run.all_free() == 0 && !run.keeps(rule)
        })
    }),
    ("a rule that the order keeps", |run| run.has_rule(|rule| run.keeps(rule))),
    ("a rule of all free options", |run| {
        run.free.len() > 3 && run.has_rule(|rule| run.all_free() & !options(rule) == 0)
    }),
];

/// The numbers of free options, by name: each that may be, forced and open, and those that are refused.
pub fn numbers() -> Vec<String> {
    let settled =
        (0..=FREE).flat_map(|free| [true, false].map(|forced| settled_number(free, forced)));
    let refused = [FREE + 1, FREE + 2].map(refused_number);
    settled.chain(refused).collect()
}

/// A number of free options with its verdict, by name.
fn settled_number(free: usize, forced: bool) -> String {
    format!("{free} free, {}", forced_name(forced))
}

/// A number of free options that is refused, by name.
fn refused_number(free: usize) -> String {
    match free == FREE + 1 {
        true => format!("{free} free"),
        false => "more free".to_string(),
    }
}

/// The options that a rule names.
fn options(rule: &Rule) -> u64 {
    rule.fitted | rule.left_out
}

fn is_full(book: &Book) -> bool {
    book.rules.len() == RULES
}

impl Run<'_> {
    pub fn new<'a>(turns: &'a Turns, settled: &'a Settled) -> Run<'a> {
        let read = read_input(&input_bytes(turns.order, &turns.book));
        let book = read.ok().filter(|_| settled.is_ok()).map(|(_, book)| book);
        Run { turns, settled, free: turns.free(), book }
    }

    /// The number of free options by name; none where book or order is refused.
    pub fn number(&self) -> Option<String> {
        let free = self.free.len();
        match self.settled {
            Ok(answer) => Some(settled_number(free, answer.forced)),
            Err(16) => Some(refused_number(free)),
            Err(_) => None,
        }
    }

    fn order(&self) -> Order {
        self.turns.order
    }

    fn is_refused(&self, number: u32) -> bool {
        *self.settled == Err(number)
    }

    fn is_forced(&self, forced: bool) -> bool {
        matches!(self.settled, Ok(answer) if answer.forced == forced)
    }

    /// It is not refused, and its book is such.
    fn is_of(&self, is_such: impl Fn(&Book) -> bool) -> bool {
        self.book.as_ref().is_some_and(is_such)
    }

    fn has_rule(&self, is_such: impl Fn(&Rule) -> bool) -> bool {
        self.is_of(|book| book.rules.iter().any(&is_such))
    }

    fn all_free(&self) -> u64 {
        self.free.iter().sum()
    }

    /// The options that are wanted for being standard alone.
    fn standard_alone(&self) -> u64 {
        self.order().standard & !(self.order().wanted | self.order().unwanted)
    }

    fn standard_unwanted(&self) -> u64 {
        self.order().standard & self.order().unwanted
    }

    /// Few enough options are free, but with these there would be too many.
    fn has_too_many_with(&self, others: u64) -> bool {
        self.is_of(|_| self.free.len() + others.count_ones() as usize > FREE)
    }

    /// The completed order makes an entry of the rule true.
    fn keeps(&self, rule: &Rule) -> bool {
        let Order { wanted, unwanted, .. } = self.order().completed();
        rule.fitted & wanted != 0 || rule.left_out & unwanted != 0
    }

    /// To leave out is answered, and to fit would do as well.
    fn has_two_answers(&self) -> bool {
        let (Ok(answer), [first, second, ..]) = (self.settled, self.free.as_slice()) else {
            return false;
        };
        let does = |choice: Response, answer: Option<Response>| {
            let fitted = self.turns.with_wishes(&[(*first, choice), (*second, Response::Fitted)]);
            answer == Some(Response::Out)
                && matches!(fitted.port_settled(), Ok(after) if after.forced)
        };
        does(Response::Out, answer.to_out) || does(Response::Fitted, answer.to_fitted)
    }
}

#[cfg(test)]
mod tests {
    use super::*;
    use optbook::bytes::book_bytes;

    /// The names of what comes up with these rules of so many options and this order, the number of free
    /// options first.
    fn names(options: usize, rules: &[(u64, u64)], order: [u64; 3]) -> Vec<String> {
        let rules = rules.iter().map(|&(fitted, left_out)| Rule { fitted, left_out }).collect();
        of(&book_bytes(&Book { options, rules }), order)
    }

    fn of(book: &[u8], [wanted, unwanted, standard]: [u64; 3]) -> Vec<String> {
        let turns = Turns { book: book.to_vec(), order: Order { wanted, unwanted, standard } };
        let settled = turns.port_settled();
        let run = Run::new(&turns, &settled);
        let sorts = SORTS.iter().filter(|(_, is_such)| is_such(&run)).map(|(name, _)| *name);
        run.number().into_iter().chain(sorts.map(str::to_string)).collect()
    }

    #[test]
    fn refusals_are_sorted_by_what_stands_beside_them() {
        assert_eq!(names(20, &[], [1 << 20, 0, 0]), ["7 and too many free"]);
        assert_eq!(names(20, &[], [1, 1, 1 << 20]), ["8 and too many free"]);
        assert_eq!(names(20, &[], [1, 2, 1 << 20]), ["12 and too many free"]);
        assert_eq!(names(12, &[], [0, 0, 1 << 20]), Vec::<String>::new());
        assert_eq!(names(13, &[], [0, 0, 0]), ["13 free"]);
        assert_eq!(names(14, &[], [0, 0, 0]), ["more free"]);
        assert_eq!(names(64, &[], [0, 0, 3]), ["more free"]);
        assert_eq!(of(&[2, 0], [1, 1, 0]), ["a refused book and a bad order"]);
        assert_eq!(of(&[], [1, 0, 0]), Vec::<String>::new());
    }

    #[test]
    fn orders_are_sorted_by_their_free_and_their_standard_options() {
        assert_eq!(names(0, &[], [0; 3]), ["0 free, forced", "no option", "no rule"]);
        let due = ["2 free, forced", "all options free", "both answers serve", "no rule"];
        assert_eq!(names(2, &[], [0; 3]), due);
        let due = ["2 free, open", "free options apart"];
        assert_eq!(names(3, &[(1, 0), (4, 0)], [2, 0, 0]), due);
        let last = 1 << 63;
        let due = ["1 free, open", "64 options", "option 64 free"];
        assert_eq!(names(64, &[(last, 0)], [!last, 0, 0]), due);
        let of_standard = |order| names(3, &[(1, 2)], order)[1..].to_vec();
        assert_eq!(of_standard([0, 0, 7]), ["standard alone", "a rule that the order keeps"]);
        let due = ["standard and wanted", "a rule that the order keeps"];
        assert_eq!(of_standard([7, 0, 1]), due);
        let due = ["standard and unwanted", "a rule that the order breaks"];
        assert_eq!(of_standard([2, 1, 1]), due);
    }

    #[test]
    fn options_that_would_be_too_many_are_told_apart() {
        let free = |order| names(13, &[(1, 0)], order)[0..3].to_vec();
        let due = ["12 free, open", "standard alone", "too many with the standard ones"];
        assert_eq!(free([0, 0, 1 << 12]), due);
        let due =
            ["12 free, open", "standard and unwanted", "too many with the unwanted standard ones"];
        assert_eq!(free([0, 1 << 12, 1 << 12]), due);
    }

    #[test]
    fn books_are_sorted_by_their_rules() {
        let fixed = |rules: &[(u64, u64)]| names(2, rules, [1, 2, 0])[1..].to_vec();
        assert_eq!(fixed(&[(0, 0)]), ["the empty rule"]);
        assert_eq!(fixed(&[(2, 1)]), ["a rule that the order breaks"]);
        assert_eq!(fixed(&[(2, 0), (1, 0)])[1..], ["a rule that the order keeps"]);
        let due = ["1,024 rules and forced", "a rule that the order keeps"];
        assert_eq!(fixed(&[(1, 0); 1024]), due);
        let due = ["1,024 rules and open", "a rule that the order breaks"];
        assert_eq!(fixed(&[(2, 0); 1024]), due);
        let all = names(4, &[(3, 12)], [0; 3]);
        assert_eq!(
            all[1..],
            ["all options free", "both answers serve", "a rule of all free options"]
        );
    }
}
