//! Sites that share one allowance: `optcheck_terminal` and `optcheck_site`.

use crate::{Answer, Order, Tables};

extern "C" {
    fn optcheck_terminal(
        count: usize,
        allowance: u32,
        left: *mut u32,
        part: *mut u32,
        sites: *mut u32,
    ) -> u32;

    fn optcheck_site(
        book: *const u8,
        book_len: usize,
        wanted: u64,
        unwanted: u64,
        standard: u64,
        left: *mut u32,
        part: u32,
        sites: *mut u32,
        pos: *mut u64,
        pos_len: usize,
        neg: *mut u64,
        neg_len: usize,
        decided: *mut u64,
        decided_len: usize,
        trues: *mut u64,
        trues_len: usize,
        redundant: *mut u64,
        redundant_len: usize,
    ) -> u64;
}

/// A site: its order, and tables of its own.
pub struct Site<'a> {
    pub order: Order,
    pub tables: Tables<'a>,
}

/// A terminal, which serves sites in turn with one allowance: the branchings that are left of it, the
/// part of each site, and how many sites are to come.
#[derive(Clone, Copy, Debug, PartialEq, Eq)]
pub struct Terminal {
    left: u32,
    part: u32,
    sites: u32,
}

impl Terminal {
    /// A terminal for so many sites, which share this many branchings. A number of sites that is not 1
    /// to 8 is refusal 21.
    pub fn open(count: usize, allowance: u32) -> Result<Terminal, u32> {
        let (mut left, mut part, mut sites) = (0, 0, 0);
        match terminal_words(count, allowance, &mut left, &mut part, &mut sites) {
            0 => Ok(Terminal { left, part, sites }),
            refusal => Err(refusal),
        }
    }

    /// The branchings that no site has used yet.
    pub fn left(self) -> u32 {
        self.left
    }

    /// The part of each site: the whole allowance divided by the number of sites.
    pub fn part(self) -> u32 {
        self.part
    }

    /// The sites to come.
    pub fn sites(self) -> u32 {
        self.sites
    }

    /// The branchings that the next site may use: all that are left, but for the parts of the sites after
    /// it. None where no site is to come.
    pub fn allowance(self) -> u32 {
        let Terminal { left, part, sites } = self;
        match sites {
            0 => 0,
            _ => u64::from(left).saturating_sub(u64::from(part) * u64::from(sites - 1)) as u32,
        }
    }

    /// Serves the next site: checks its order against a book, with the next site's allowance. What it
    /// leaves unused passes on; a refused site uses nothing. Where no site is to come, the answer is
    /// refusal 21, and neither the terminal nor a table is touched.
    pub fn serve(&mut self, book: &[u8], order: Order, tables: Tables) -> Answer {
        let Terminal { left, part, sites } = self;
        Answer::of_word(site_words(book, order, left, *part, sites, tables))
    }
}

/// Serves all sites of a list in turn, which share this many branchings: each has its part of them, and
/// what those before it left unused. The answers stand in the sites' sequence; a number of sites that is
/// not 1 to 8 is refusal 21, and then no table is touched.
pub fn sites(book: &[u8], sites: Vec<Site>, allowance: u32) -> Result<Vec<Answer>, u32> {
    let mut terminal = Terminal::open(sites.len(), allowance)?;
    let served = |Site { order, tables }| terminal.serve(book, order, tables);
    Ok(sites.into_iter().map(served).collect())
}

/// Opens a terminal as words: 0 and its three numbers, or 21, and then they are not touched.
pub fn terminal_words(
    count: usize,
    allowance: u32,
    left: &mut u32,
    part: &mut u32,
    sites: &mut u32,
) -> u32 {
    // Safety: the three numbers are borrowed for the call, and no two of them overlap.
    unsafe { optcheck_terminal(count, allowance, left, part, sites) }
}

/// Serves the next site of a terminal as words, whatever its three numbers are, and gives the answer's.
pub fn site_words(
    book: &[u8],
    order: Order,
    left: &mut u32,
    part: u32,
    sites: &mut u32,
    tables: Tables,
) -> u64 {
    let Order { wanted, unwanted, standard } = order;
    let Tables { pos, neg, decided, trues, redundant } = tables;
    // Safety: as of `check_word`; the two numbers are borrowed for the call too.
    unsafe {
        optcheck_site(
            book.as_ptr(),
            book.len(),
            wanted,
            unwanted,
            standard,
            left,
            part,
            sites,
            pos.as_mut_ptr(),
            pos.len(),
            neg.as_mut_ptr(),
            neg.len(),
            decided.as_mut_ptr(),
            decided.len(),
            trues.as_mut_ptr(),
            trues.len(),
            redundant.as_mut_ptr(),
            redundant.len(),
        )
    }
}

#[cfg(test)]
mod tests {
    use super::*;
    use crate::library::small::{answer, lend, pair, q, rubbish, RUBBISH};
    use crate::Kind;

    const PLACES: [usize; 5] = [2, 2, 64, 65, 70];
    const NONE: Order = Order { wanted: 0, unwanted: 0, standard: 0 };
    /// Of a book of one option, this order is refused with 7.
    const ABOVE: Order = Order { wanted: 2, unwanted: 0, standard: 0 };

    fn wanted(wanted: u64) -> Order {
        Order { wanted, ..NONE }
    }

    /// A table of this length with these words at its first places, and rubbish after them.
    fn table(length: usize, written: &[u64]) -> Vec<u64> {
        let mut table = vec![RUBBISH; length];
        table[..written.len()].copy_from_slice(written);
        table
    }

    /// The answers to these orders in one call, and each site's tables.
    fn in_one_call(
        book: &[u8],
        orders: &[Order],
        allowance: u32,
    ) -> (Result<Vec<Answer>, u32>, Vec<[Vec<u64>; 5]>) {
        let mut tables: Vec<_> = orders.iter().map(|_| rubbish(PLACES)).collect();
        let list = orders.iter().zip(&mut tables);
        let list = list.map(|(&order, tables)| Site { order, tables: lend(tables) }).collect();
        (sites(book, list, allowance), tables)
    }

    fn numbers(terminal: Terminal) -> [u32; 4] {
        [terminal.left(), terminal.part(), terminal.sites(), terminal.allowance()]
    }

    /// Three marked orders of Q need 1, 2 and 1 branchings. Of 5 the part is 1, and 2 remain.
    #[test]
    fn each_site_has_its_part_and_what_those_before_it_left() {
        let can = Answer { branchings: 1, records: 2, ..answer(Kind::Can, 0, 0) };
        let cannot = Answer { branchings: 2, derived: 2, ..answer(Kind::Cannot, 0, 1) };
        let mut terminal = Terminal::open(3, 5).unwrap();
        assert_eq!(numbers(terminal), [5, 1, 3, 3]);
        let mut serve = |order: Order| {
            let answer = terminal.serve(&q(), order, lend(&mut rubbish(PLACES)));
            (answer, numbers(terminal))
        };
        assert_eq!(serve(NONE), (can, [4, 1, 2, 3]));
        assert_eq!(serve(wanted(6)), (cannot, [2, 1, 1, 2]));
        assert_eq!(serve(wanted(1)), (can, [1, 1, 0, 0]));

        let (answers, tables) = in_one_call(&q(), &[NONE, wanted(6), wanted(1)], 5);
        assert_eq!(answers, Ok(vec![can, cannot, can]));
        let written: [[&[u64]; 5]; 3] = [
            [&[], &[], &[1, 1], &[0, 0], &[4, 6]],
            [&[0, 0], &[2, 0], &[0], &[0], &[7]],
            [&[], &[], &[1, 1], &[1, 1], &[2, 6]],
        ];
        for (tables, written) in tables.iter().zip(written) {
            for ((table_of, length), written) in tables.iter().zip(PLACES).zip(written) {
                assert_eq!(*table_of, table(length, written));
            }
        }
    }

    /// Each site needs one branching. Of 3 for two sites the part is 1, and the first has the remainder
    /// too; of 1 the part is 0.
    #[test]
    fn the_remainder_is_the_first_sites_and_a_spent_allowance_stops() {
        let (cannot, ten) = (answer(Kind::Cannot, 0, 1), answer(Kind::Stopped, 10, 0));
        assert_eq!(numbers(Terminal::open(2, 3).unwrap()), [3, 1, 2, 2]);
        assert_eq!(in_one_call(&pair(), &[NONE; 2], 1).0, Ok(vec![cannot, ten]));
        assert_eq!(in_one_call(&pair(), &[NONE; 3], 0).0, Ok(vec![ten; 3]));
        assert_eq!(in_one_call(&pair(), &[NONE; 3], 2).0, Ok(vec![cannot, cannot, ten]));
    }

    #[test]
    fn all_the_allowance_of_a_refused_site_passes_on() {
        let (seven, cannot) = (answer(Kind::Refused, 7, 0), answer(Kind::Cannot, 0, 1));
        let (answers, tables) = in_one_call(&pair(), &[ABOVE, NONE, ABOVE], 1);
        assert_eq!(answers, Ok(vec![seven, cannot, seven]));
        assert_eq!([&tables[0], &tables[2]], [&rubbish(PLACES); 2]);
        assert_eq!(tables[1][4], table(70, &[1]));
        let mut terminal = Terminal::open(2, 7).unwrap();
        let short = terminal.serve(&pair(), NONE, lend(&mut rubbish([1, 2, 64, 64, 64])));
        assert_eq!((short, numbers(terminal)), (answer(Kind::Refused, 9, 0), [7, 3, 1, 7]));
    }

    #[test]
    fn a_bad_book_is_every_sites_answer() {
        let (answers, tables) = in_one_call(&[1, 0], &[NONE; 8], 9);
        assert_eq!(answers, Ok(vec![answer(Kind::Refused, 1, 0); 8]));
        assert_eq!(tables, vec![rubbish(PLACES); 8]);
    }

    #[test]
    fn after_the_last_site_nothing_is_touched() {
        let mut terminal = Terminal::open(1, 5).unwrap();
        terminal.serve(&pair(), NONE, lend(&mut rubbish(PLACES)));
        assert_eq!(numbers(terminal), [4, 5, 0, 0]);
        for (book, order) in [(&pair()[..], NONE), (&pair(), ABOVE), (&[], NONE)] {
            let mut tables = rubbish(PLACES);
            let after = terminal.serve(book, order, lend(&mut tables));
            assert_eq!(after, answer(Kind::Refused, 21, 0));
            assert_eq!((numbers(terminal), tables), ([4, 5, 0, 0], rubbish(PLACES)));
        }
    }

    #[test]
    fn a_number_of_sites_that_is_not_1_to_8_touches_nothing() {
        for count in [0, 9, 10, 256, 1 << 32, (1 << 32) + 1, usize::MAX] {
            assert_eq!(Terminal::open(count, 5), Err(21));
            let mut numbers = [RUBBISH as u32; 3];
            let [left, part, sites] = &mut numbers;
            assert_eq!(terminal_words(count, 5, left, part, sites), 21);
            assert_eq!(numbers, [RUBBISH as u32; 3]);
        }
        for (book, count) in [(&pair()[..], 0), (&pair(), 9), (&[], 0), (&[], 12)] {
            let (answers, tables) = in_one_call(book, &vec![NONE; count], 5);
            assert_eq!((answers, tables), (Err(21), vec![rubbish(PLACES); count]));
        }
    }

    #[test]
    fn eight_sites_share_the_largest_allowance() {
        assert_eq!(numbers(Terminal::open(1, 0).unwrap()), [0, 0, 1, 0]);
        let opened = Terminal::open(8, u32::MAX).unwrap();
        assert_eq!(numbers(opened), [u32::MAX, 536_870_911, 8, 536_870_918]);
        let (answers, _) = in_one_call(&pair(), &[NONE; 8], u32::MAX);
        assert_eq!(answers, Ok(vec![answer(Kind::Cannot, 0, 1); 8]));
    }

    /// The site needs one branching, and stops where it may use none.
    #[test]
    fn any_three_numbers_are_a_terminal() {
        let terminals = [
            ([0, 0, 1], 0),
            ([1, u32::MAX, 1], 1),
            ([10, 5, 3], 0),
            ([11, 5, 3], 1),
            ([9, 5, 3], 0),
            ([u32::MAX, 1, u32::MAX], 1),
            ([u32::MAX, u32::MAX, 1], u32::MAX),
            ([u32::MAX, u32::MAX, 2], 0),
            ([u32::MAX, u32::MAX, u32::MAX], 0),
            // The parts of the sites after it are 2^32 branchings.
            ([u32::MAX, 1 << 31, 3], 0),
            ([7, 1 << 16, (1 << 16) + 1], 0),
        ];
        for ([left, part, sites], allowance) in terminals {
            let mut terminal = Terminal { left, part, sites };
            assert_eq!(terminal.allowance(), allowance);
            let given = terminal.serve(&pair(), NONE, lend(&mut rubbish(PLACES)));
            let (due, used) = match allowance {
                0 => (answer(Kind::Stopped, 10, 0), 0),
                _ => (answer(Kind::Cannot, 0, 1), 1),
            };
            let after = Terminal { left: left - used, part, sites: sites - 1 };
            assert_eq!((given, terminal), (due, after), "{left} {part} {sites}");
        }
    }
}
