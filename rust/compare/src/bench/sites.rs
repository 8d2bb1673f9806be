//! The orders of eight sites that share one allowance in one call beside the same orders in a call each, in
//! the same tables, in turns. The allowance is so large that no site's part is spent.

use super::morning::{rows, table, Ways};

/// The sites that share an allowance.
const SITES: usize = 8;

/// Measures every row and prints the table, where there is a library.
pub fn run(seed: u64) -> Result<(), String> {
    let Some(mut ways) = ways() else { return Ok(()) };
    table(&format!("{SITES} sites"), rows(seed, SITES), &mut ways)
}

#[cfg(not(feature = "proved"))]
fn ways() -> Option<Ways> {
    None
}

#[cfg(feature = "proved")]
fn ways() -> Option<Ways> {
    use optcheck::{Site, Tables};
    use port::{PROGRAM_ALLOWANCE, PROGRAM_PLACES, PROGRAM_RECORD_PLACES};
    use std::hint::black_box;

    /// The five tables of each site, of the program's lengths.
    fn lent() -> Vec<[Vec<u64>; 5]> {
        let [derived, records] = [PROGRAM_PLACES, PROGRAM_RECORD_PLACES];
        let lengths = [derived, derived, records, records, records];
        (0..SITES).map(|_| lengths.map(|places| vec![0; places])).collect()
    }

    fn tables(lent: &mut [Vec<u64>; 5]) -> Tables<'_> {
        let [pos, neg, decided, trues, redundant] = lent;
        Tables { pos, neg, decided, trues, redundant }
    }

    let (mut of_together, mut of_singly) = (lent(), lent());
    Some(Ways {
        together: Box::new(move |(book, orders)| {
            let sites = orders.iter().zip(&mut of_together);
            let sites = sites.map(|(&order, lent)| Site { order, tables: tables(lent) }).collect();
            let answers = optcheck::sites(book, sites, SITES as u32 * PROGRAM_ALLOWANCE);
            let answers = black_box(answers).expect("sites that are served");
            answers.iter().map(|answer| u64::from(answer.branchings)).sum()
        }),
        singly: Box::new(move |(book, orders)| {
            let check = |(&order, lent)| {
                let answer = optcheck::check(book, order, PROGRAM_ALLOWANCE, tables(lent));
                u64::from(black_box(answer).branchings)
            };
            orders.iter().zip(&mut of_singly).map(check).sum()
        }),
    })
}
