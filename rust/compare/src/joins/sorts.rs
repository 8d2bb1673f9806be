//! What may come up where books are joined, each by a name.

use crate::question::{Join, Joined};

/// The most options and rules of a book.
const OPTIONS: usize = optbook::OPTIONS;
const RULES: usize = optbook::RULES;

/// Two books that were joined, or not; each book's own refusal, and the pairs that are whole.
pub struct Run<'a> {
    join: &'a Join,
    joined: &'a Joined,
    pub refusals: [Option<u32>; 2],
    pairs: Vec<[usize; 2]>,
}

/// A name, and whether it comes up.
type Sort = (&'static str, fn(&Run) -> bool);

/// All of them, in the order in which they are told.
pub const SORTS: [Sort; 37] = [
    ("both books refused", |run| match run.refusals {
        [Some(first), Some(second)] => first != second,
        _ => false,
    }),
    ("a refused book and bad pairs", |run| run.is_refused_book() && run.has_odd_pairs()),
    ("a refused book and no room", |run| run.is_refused_book() && run.join.room == 0),
    ("a pair cut short", |run| run.is(22) && run.has_odd_pairs()),
    ("option 0 of the first", |run| run.is(22) && run.has_pair(|[a, _]| a == 0)),
    ("option 0 of the second", |run| run.is(22) && run.has_pair(|[_, b]| b == 0)),
    ("option n + 1 of the first", |run| {
        run.is(22) && run.has_pair(|[a, _]| a == run.options()[0] + 1)
    }),
    ("option n + 1 of the second", |run| {
        run.is(22) && run.has_pair(|[_, b]| b == run.options()[1] + 1)
    }),
    ("a later option of the first", |run| {
        run.is(22) && run.has_pair(|[a, _]| a > run.options()[0] + 1)
    }),
    ("a later option of the second", |run| {
        run.is(22) && run.has_pair(|[_, b]| b > run.options()[1] + 1)
    }),
    ("paired again, of the first", |run| {
        run.is(22) && run.has_two(|one, other| one[0] == other[0] && one[1] != other[1])
    }),
    ("paired again, of the second", |run| {
        run.is(22) && run.has_two(|one, other| one[0] != other[0] && one[1] == other[1])
    }),
    ("a pair twice", |run| run.is(22) && run.has_two(|one, other| one == other)),
    ("bad pairs of too many options", |run| run.is(22) && run.all_options() > OPTIONS),
    ("bad pairs and too little room", |run| run.is(22) && run.join.room < run.bytes()),
    ("65 options", |run| run.is(23) && run.all_options() == OPTIONS + 1 && run.has_room()),
    ("more options", |run| run.is(23) && run.all_options() > OPTIONS + 1 && run.has_room()),
    ("1,025 rules", |run| run.is(23) && run.all_rules() == RULES + 1 && run.has_room()),
    ("more rules", |run| run.is(23) && run.all_rules() > RULES + 1 && run.has_room()),
    ("one byte short", |run| run.is(23) && run.is_small() && run.join.room + 1 == run.bytes()),
    ("no room", |run| run.is(23) && run.is_small() && run.join.room == 0),
    ("no pairs", |run| run.is_joined() && run.pairs.is_empty()),
    ("some pairs", |run| run.pairs_leave([true, true])),
    ("all of the second paired", |run| run.pairs_leave([true, false])),
    ("all of the first paired", |run| run.pairs_leave([false, true])),
    ("all of both paired", |run| run.pairs_leave([false, false])),
    ("the last of the first paired", |run| {
        run.is_joined() && run.has_pair(|[a, _]| a == run.options()[0])
    }),
    ("the last of the second paired", |run| {
        run.is_joined() && run.has_pair(|[_, b]| b == run.options()[1])
    }),
    ("pairs in descending order", |run| {
        run.is_joined() && run.pairs.len() > 1 && run.pairs.windows(2).all(|two| two[0] > two[1])
    }),
    ("pairs that cross", |run| {
        run.is_joined() && run.has_two(|one, other| (one[0] < other[0]) != (one[1] < other[1]))
    }),
    ("no option", |run| run.is_joined() && run.all_options() == 0),
    ("no rule of the first", |run| run.is_joined() && run.rules()[0] == 0 && run.rules()[1] > 0),
    ("no rule of the second", |run| run.is_joined() && run.rules()[1] == 0 && run.rules()[0] > 0),
    ("64 options", |run| run.is_joined() && run.all_options() == OPTIONS),
    ("1,024 rules", |run| run.is_joined() && run.all_rules() == RULES),
    ("just enough room", |run| run.is_joined() && run.join.room == run.bytes()),
    ("more room", |run| run.is_joined() && run.join.room > run.bytes()),
];

impl Run<'_> {
    pub fn new<'a>(join: &'a Join, joined: &'a Joined) -> Run<'a> {
        let pairs = join.pairs.chunks_exact(2);
        let pairs = pairs.map(|pair| [pair[0].into(), pair[1].into()]).collect();
        let refusals = [&join.first, &join.second].map(|book| refusal(book));
        Run { join, joined, refusals, pairs }
    }

    fn is(&self, number: u32) -> bool {
        *self.joined == Err(number)
    }

    fn is_joined(&self) -> bool {
        self.joined.is_ok()
    }

    fn is_refused_book(&self) -> bool {
        self.refusals.iter().any(Option::is_some)
    }

    /// A byte is left over after the pairs.
    fn has_odd_pairs(&self) -> bool {
        !self.join.pairs.len().is_multiple_of(2)
    }

    fn has_pair(&self, is_such: impl Fn([usize; 2]) -> bool) -> bool {
        self.pairs.iter().any(|pair| is_such(*pair))
    }

    /// Some pair and a later one are such.
    fn has_two(&self, are_such: impl Fn(&[usize; 2], &[usize; 2]) -> bool) -> bool {
        let later = |index: usize| &self.pairs[index + 1..];
        let mut pairs = self.pairs.iter().enumerate();
        pairs.any(|(index, pair)| later(index).iter().any(|other| are_such(pair, other)))
    }

    /// The options of each book. Neither is refused where they are asked for.
    fn options(&self) -> [usize; 2] {
        [&self.join.first, &self.join.second].map(|book| book[0].into())
    }

    fn rules(&self) -> [usize; 2] {
        let rules = |book: &Vec<u8>| usize::from(book[1]) + 256 * usize::from(book[2]);
        [&self.join.first, &self.join.second].map(rules)
    }

    /// There are pairs, and they leave options of the first book over, and of the second.
    fn pairs_leave(&self, some: [bool; 2]) -> bool {
        self.is_joined()
            && !self.pairs.is_empty()
            && self.options().map(|options| options > self.pairs.len()) == some
    }

    fn all_options(&self) -> usize {
        (self.options()[0] + self.options()[1]).saturating_sub(self.pairs.len())
    }

    fn all_rules(&self) -> usize {
        self.rules()[0] + self.rules()[1]
    }

    /// The bytes of the joint book.
    fn bytes(&self) -> usize {
        3 + 16 * self.all_rules()
    }

    fn has_room(&self) -> bool {
        self.join.room >= self.bytes()
    }

    /// The joint book has no more options and rules than a book has.
    fn is_small(&self) -> bool {
        self.all_options() <= OPTIONS && self.all_rules() <= RULES
    }
}

/// The number with which a book is refused: that of a join with a book of nothing.
fn refusal(book: &[u8]) -> Option<u32> {
    port::join(book, &[0, 0, 0], &[], book.len()).err()
}

#[cfg(test)]
mod tests {
    use super::*;
    use crate::question::Question;

    /// The names of what comes up with books of so many options and rules, these pairs and this much room.
    fn names(books: [(u8, usize); 2], pairs: &[u8], room: usize) -> Vec<&'static str> {
        let book = |(options, rules): (u8, usize)| {
            let head = vec![options, rules as u8, (rules >> 8) as u8];
            [head, vec![0; 16 * rules]].concat()
        };
        let [first, second] = books.map(book);
        of(&Join { first, second, pairs: pairs.to_vec(), room })
    }

    fn of(join: &Join) -> Vec<&'static str> {
        let joined = join.port_joined();
        let run = Run::new(join, &joined);
        SORTS.iter().filter(|(_, is_such)| is_such(&run)).map(|(name, _)| *name).collect()
    }

    #[test]
    fn refused_books_are_sorted_by_what_stands_beside_them() {
        let lines = |first: &str, second: &str, pairs: &str, room: usize| {
            let fields = [first, second, pairs].map(str::to_string);
            let room = format!("room {room}");
            let lines = ["join", &fields[0], &fields[1], &fields[2], &room];
            match Question::read(&lines).unwrap() {
                Question::Join(join) => of(&join),
                _ => panic!("no join"),
            }
        };
        assert_eq!(lines("first 00", "second 410000", "pairs ", 3), ["both books refused"]);
        assert_eq!(lines("first 00", "second 00", "pairs ", 3), Vec::<&str>::new());
        let due = ["a refused book and bad pairs", "a refused book and no room"];
        assert_eq!(lines("first 000000", "second 00", "pairs 01", 0), due);
    }

    #[test]
    fn bad_pairs_are_sorted_by_their_faults() {
        let bad = |pairs: &[u8]| names([(3, 1), (4, 1)], pairs, 35);
        assert_eq!(bad(&[1]), ["a pair cut short"]);
        assert_eq!(bad(&[0, 1]), ["option 0 of the first"]);
        assert_eq!(bad(&[1, 0]), ["option 0 of the second"]);
        assert_eq!(bad(&[4, 1]), ["option n + 1 of the first"]);
        assert_eq!(bad(&[1, 5]), ["option n + 1 of the second"]);
        assert_eq!(bad(&[5, 1]), ["a later option of the first"]);
        assert_eq!(bad(&[1, 6]), ["a later option of the second"]);
        assert_eq!(bad(&[1, 2, 1, 3]), ["paired again, of the first"]);
        assert_eq!(bad(&[1, 2, 2, 2]), ["paired again, of the second"]);
        assert_eq!(bad(&[1, 2, 3, 3, 1, 2]), ["a pair twice"]);
        let due = ["a pair cut short", "bad pairs of too many options"];
        assert_eq!(names([(64, 1), (1, 0)], &[1], 19), due);
        let due = ["a pair cut short", "bad pairs and too little room"];
        assert_eq!(names([(3, 1), (1, 0)], &[1], 18), due);
    }

    #[test]
    fn too_large_a_book_is_sorted_by_what_is_too_much() {
        assert_eq!(names([(60, 0), (6, 0)], &[1, 1], 3), ["65 options"]);
        assert_eq!(names([(60, 0), (6, 0)], &[], 3), ["more options"]);
        assert_eq!(names([(1, 1024), (1, 1)], &[], 20_000), ["1,025 rules"]);
        assert_eq!(names([(1, 1024), (1, 2)], &[], 20_000), ["more rules"]);
        assert_eq!(names([(1, 1), (1, 1)], &[], 34), ["one byte short"]);
        assert_eq!(names([(1, 1), (1, 1)], &[], 0), ["no room"]);
        assert_eq!(names([(64, 1024), (64, 1024)], &[], 7), Vec::<&str>::new());
    }

    #[test]
    fn joint_books_are_sorted_by_their_pairs_and_sizes() {
        let joined = |options: [u8; 2], pairs: &[u8]| {
            let books = [(options[0], 1), (options[1], 1)];
            let mut names = names(books, pairs, 35);
            assert_eq!(names.pop(), Some("just enough room"));
            names
        };
        assert_eq!(joined([3, 4], &[]), ["no pairs"]);
        assert_eq!(joined([3, 4], &[1, 1]), ["some pairs"]);
        let due = ["all of the second paired", "the last of the second paired"];
        assert_eq!(joined([3, 1], &[2, 1]), due);
        let due = ["all of the first paired", "the last of the first paired"];
        assert_eq!(joined([1, 3], &[1, 2]), due);
        let last = ["the last of the first paired", "the last of the second paired"];
        let due = ["pairs in descending order", "pairs that cross"];
        let due = [&["all of both paired"], &last[..], &due].concat();
        assert_eq!(joined([2, 2], &[2, 1, 1, 2]), due);
        assert_eq!(joined([3, 4], &[2, 2, 1, 1]), ["some pairs", "pairs in descending order"]);
        assert_eq!(joined([32, 33], &[1, 1]), ["some pairs", "64 options"]);
        let due = ["no pairs", "no option", "no rule of the first", "more room"];
        assert_eq!(names([(0, 0), (0, 1)], &[], 20), due);
        let due = ["no pairs", "no rule of the second", "1,024 rules", "just enough room"];
        assert_eq!(names([(1, 1024), (1, 0)], &[], 16_387), due);
    }
}
