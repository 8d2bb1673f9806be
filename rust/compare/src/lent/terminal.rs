//! The numbers of a terminal and the tables of its next site, which are lent to one call.

use super::Lent;
use crate::question::After;
use optcheck::Tables;
use port::Places;

/// Numbers that are lent, each with a place after it that is not.
pub struct Numbers<const N: usize> {
    places: [[u32; 2]; N],
    rubbish: u32,
}

impl<const N: usize> Numbers<N> {
    pub fn new(given: [u32; N], rubbish: u64) -> Numbers<N> {
        let rubbish = rubbish as u32;
        Numbers { places: given.map(|number| [number, rubbish]), rubbish }
    }

    pub fn lend(&mut self) -> [&mut u32; N] {
        self.places.each_mut().map(|[number, _]| number)
    }

    /// The numbers as they are now. It is an error if a place after one was written.
    pub fn taken(&self) -> Result<[u32; N], String> {
        match self.places.iter().all(|[_, after]| *after == self.rubbish) {
            true => Ok(self.places.map(|[number, _]| number)),
            false => Err("the place after a number of the terminal was written".to_string()),
        }
    }
}

/// Lends a site's tables, and what is left and the sites to come of a terminal, to a call that serves the
/// site, and gives the word of its answer and the two numbers after it.
pub fn serve(
    lent: &mut Lent,
    given: [u32; 2],
    rubbish: u64,
    call: impl FnOnce([&mut u32; 2], Tables) -> u64,
) -> Result<(u64, [u32; 2]), String> {
    let mut numbers = Numbers::new(given, rubbish);
    let word = call(numbers.lend(), lent.tables());
    Ok((word, numbers.taken()?))
}

/// Lends tables of these lengths, and what is left and the sites to come of a terminal, and takes out what
/// the call leaves. It is an error if a word is no answer's, or if a place changed that is not counted.
pub fn lend(
    places: &Places,
    given: [u32; 2],
    rubbish: u64,
    call: impl FnOnce([&mut u32; 2], Tables) -> u64,
) -> Result<After, String> {
    let mut lent = Lent::new(places, rubbish);
    let (word, [left, sites]) = serve(&mut lent, given, rubbish, call)?;
    Ok(After { outcome: lent.outcome(word)?, left, sites })
}

#[cfg(test)]
mod tests {
    use super::super::tests::{cannot, RUBBISH};
    use super::*;
    use crate::question::after_text;

    const PLACES: Places = Places { derived: [2, 2], records: [64, 65, 70] };

    /// The word of refusal 21.
    const TWENTY_ONE: u64 = 2 + 4 * 21;

    #[test]
    fn the_numbers_come_back_with_the_outcome() {
        let after = lend(&PLACES, [9, 3], RUBBISH, |[left, sites], tables| {
            (tables.pos[0], tables.neg[0]) = (1, 2);
            (tables.decided[0], tables.trues[0], tables.redundant[0]) = (12, 4, 3);
            assert_eq!((*left, *sites), (9, 3));
            (*left, *sites) = (7, 2);
            cannot(1, 1)
        });
        let due = "cannot 0 2 1 1\nd 1 2\nr 12 4 3\nleft 7\nsites 2\n";
        assert_eq!(after_text(&after.unwrap()), due);
    }

    #[test]
    fn every_place_that_is_not_counted_is_looked_at() {
        let told = |word: u64, table: fn(Tables) -> &mut [u64], place: usize| {
            let changed = lend(&PLACES, [9, 3], RUBBISH, |_, tables| {
                table(tables)[place] = 0;
                word
            });
            (changed.unwrap_err(), format!("place {place} was written, which is not counted"))
        };
        for (told, due) in [
            told(TWENTY_ONE, |tables| tables.pos, 0),
            told(TWENTY_ONE, |tables| tables.redundant, 69),
            told(cannot(1, 1), |tables| tables.neg, 1),
            told(cannot(1, 1), |tables| tables.decided, 63),
            told(cannot(0, 0), |tables| tables.trues, 64),
        ] {
            assert_eq!(told, due);
        }
    }

    #[test]
    fn a_place_after_a_number_is_looked_at() {
        let mut numbers = Numbers::new([9, 4, 3], RUBBISH);
        numbers.lend().into_iter().for_each(|number| *number -= 1);
        assert_eq!(numbers.taken(), Ok([8, 3, 2]));
        numbers.places[1][1] = 0;
        let due = "the place after a number of the terminal was written";
        assert_eq!(numbers.taken(), Err(due.to_string()));
    }
}
