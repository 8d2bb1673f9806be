//! The page for the file: `optcheck_page`.

use crate::{Order, Page, PAGE_BYTES};

extern "C" {
    fn optcheck_page(
        book: *const u8,
        book_len: usize,
        wanted: u64,
        unwanted: u64,
        standard: u64,
        allowance: u32,
        page: *mut u8,
        page_len: usize,
    ) -> usize;
}

/// The page of the check of an order against a book, with at most this many branchings and 2,048 places
/// for derived rules.
pub fn page(book: &[u8], order: Order, allowance: u32) -> Page {
    let mut bytes = vec![0; PAGE_BYTES];
    let length = page_bytes(book, order, allowance, &mut bytes);
    bytes.truncate(length);
    Page::of_text(String::from_utf8(bytes).expect("a page is ASCII"))
}

/// The same page at the start of these bytes, of which the later ones are not touched, and the number of
/// its own. It is 0, and none is touched, where there are fewer than `PAGE_BYTES`.
pub fn page_bytes(book: &[u8], order: Order, allowance: u32, page: &mut [u8]) -> usize {
    let Order { wanted, unwanted, standard } = order;
    // Safety: as of `check_word`; the page is borrowed for the call too.
    unsafe {
        optcheck_page(
            book.as_ptr(),
            book.len(),
            wanted,
            unwanted,
            standard,
            allowance,
            page.as_mut_ptr(),
            page.len(),
        )
    }
}

#[cfg(test)]
mod tests {
    use super::*;
    use crate::library::small::{book, pair, q};
    use crate::{Kind, PAGE_LINE};

    const AMPLE: u32 = 1_000_000;
    const NONE: Order = Order { wanted: 0, unwanted: 0, standard: 0 };

    /// A byte that no page has.
    const RUBBISH: u8 = 0xa5;

    /// The first line, with the number, the branchings and the number of derived rules.
    fn first(word: &str, [number, branchings, derived]: [u32; 3]) -> String {
        format!("{word:<10}{number:>10}{branchings:>10}{derived:>10}\n")
    }

    /// The line of a derived rule.
    fn rule(number: usize, entries: &str) -> String {
        format!("{number:>4} {entries:<35}\n")
    }

    /// The marked book W.
    fn w() -> Vec<u8> {
        book(2, &[3, 2, 1, 0, 0, 1, 2, 3])
    }

    #[test]
    fn the_page_of_a_verdict_has_a_line_for_each_derived_rule() {
        let due = [
            "cannot             0         3         3\n",
            "   1 1                                  \n",
            "   2 -1                                 \n",
            "   3 none                               \n",
        ];
        let cannot = page(&w(), NONE, AMPLE);
        assert_eq!((cannot.kind, cannot.text), (Kind::Cannot, due.concat()));
        let can = page(&q(), NONE, AMPLE);
        assert_eq!((can.kind, can.text), (Kind::Can, first("can", [0, 1, 0])));
    }

    #[test]
    fn a_standard_option_counts_as_wanted() {
        let order = Order { wanted: 2, unwanted: 0, standard: 4 };
        let due = [first("cannot", [0, 2, 2]), rule(1, "-2"), rule(2, "none")].concat();
        assert_eq!(page(&q(), order, AMPLE).text, due);
    }

    #[test]
    fn the_page_of_a_refusal_has_one_line() {
        let order = |wanted, unwanted, standard| Order { wanted, unwanted, standard };
        let refused = [
            (&[1, 0][..], NONE, 1),
            (&pair(), order(2, 0, 0), 7),
            (&pair(), order(1, 1, 0), 8),
            (&pair(), order(0, 0, 1 << 63), 12),
        ];
        for (book, order, number) in refused {
            let page = page(book, order, AMPLE);
            assert_eq!((page.kind, page.text), (Kind::Refused, first("refused", [number, 0, 0])));
        }
    }

    #[test]
    fn the_page_of_a_stop_has_what_was_derived_before_it() {
        let ten = page(&w(), NONE, 2);
        let due = first("stopped", [10, 2, 1]) + &rule(1, "1");
        assert_eq!((ten.kind, ten.text), (Kind::Stopped, due));
        assert_eq!(page(&pair(), NONE, 0).text, first("stopped", [10, 0, 0]));
    }

    #[test]
    fn later_bytes_are_not_touched() {
        for length in [PAGE_BYTES, PAGE_BYTES + 1, 2 * PAGE_BYTES] {
            let mut bytes = vec![RUBBISH; length];
            assert_eq!(page_bytes(&w(), NONE, AMPLE, &mut bytes), 4 * PAGE_LINE);
            let (page_of, rest) = bytes.split_at(4 * PAGE_LINE);
            assert_eq!(page_of, page(&w(), NONE, AMPLE).text.as_bytes());
            assert!(rest.iter().all(|&byte| byte == RUBBISH));
        }
    }

    #[test]
    fn where_the_longest_page_does_not_fit_no_byte_is_touched() {
        for length in [0, 1, PAGE_LINE, 4 * PAGE_LINE, PAGE_BYTES - 1] {
            for book in [&w()[..], &[]] {
                let mut bytes = vec![RUBBISH; length];
                assert_eq!(page_bytes(book, NONE, AMPLE, &mut bytes), 0);
                assert_eq!(bytes, vec![RUBBISH; length]);
            }
        }
    }
}
