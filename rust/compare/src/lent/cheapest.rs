//! Four places that are lent for the cheapest plant: for whether there is one, its total, the amount due and the
//! choice.

use crate::question::Quoted;
use port::Quote;

/// The places stand between others that are not lent, and the rubbish is another word at each.
const WORDS: usize = 7;

struct Lent {
    can: [u32; 3],
    words: [u64; WORDS],
    rubbish: u64,
}

impl Lent {
    fn new(rubbish: u64) -> Lent {
        Lent {
            can: std::array::from_fn(|index| rubbish_at(rubbish, index) as u32),
            words: std::array::from_fn(|index| rubbish_at(rubbish, index)),
            rubbish,
        }
    }

    fn lend(&mut self) -> (&mut u32, [&mut u64; 3]) {
        let [_, total, _, due, _, choice, _] = &mut self.words;
        (&mut self.can[1], [total, due, choice])
    }

    /// What stands in the places after a call that gave this number. It is an error if what says whether there
    /// is a plant has no meaning, if there is none and another place is not 0, if a word changed that is not
    /// lent, or if a refusal changed one.
    fn quoted(&self, number: u32) -> Result<Quoted, String> {
        let Lent { can, words, rubbish } = self;
        let is_other = |index: usize| words[index] != rubbish_at(*rubbish, index);
        let can_is_other = |index: usize| can[index] != rubbish_at(*rubbish, index) as u32;
        if [0, 2].into_iter().any(can_is_other) || (0..WORDS).step_by(2).any(is_other) {
            return Err("a word was written that is not lent".to_string());
        }
        let [total, due, choice] = [1, 3, 5].map(|index| words[index]);
        if number != 0 {
            let is_written = [can_is_other(1), is_other(1), is_other(3), is_other(5)];
            return match is_written.iter().position(|is_written| *is_written) {
                Some(place) => Err(format!("refused {number}, and place {place} was written")),
                None => Ok(Err(number)),
            };
        }
        match can[1] {
            1 => Ok(Ok(Some(Quote { total, due, choice }))),
            0 if [total, due, choice] == [0; 3] => Ok(Ok(None)),
            0 => Err(format!("cannot, and the other places are {total} {due} {choice}, not 0")),
            can => Err(format!("whether there is a plant is {can}, not 0 or 1")),
        }
    }
}

fn rubbish_at(rubbish: u64, index: usize) -> u64 {
    rubbish ^ index as u64
}

/// Lends four places to a call that writes whether there is a plant, and its total, the amount due and the
/// choice, and takes them out: over this rubbish, and then over its complement, so that every word that is
/// written shows. It is also an error if the two calls differ.
pub fn lend(
    rubbish: u64,
    mut call: impl FnMut(&mut u32, [&mut u64; 3]) -> u32,
) -> Result<Quoted, String> {
    let mut quoted = |rubbish| {
        let mut lent = Lent::new(rubbish);
        let (can, words) = lent.lend();
        let number = call(can, words);
        lent.quoted(number)
    };
    let (over_one, over_other) = (quoted(rubbish)?, quoted(!rubbish)?);
    match over_one == over_other {
        true => Ok(over_one),
        false => Err("over other rubbish the answer is another".to_string()),
    }
}

#[cfg(test)]
mod tests {
    use super::super::tests::RUBBISH;
    use super::*;

    /// A call that writes these words.
    fn written(can: u32, words: [u64; 3]) -> Result<Quoted, String> {
        lend(RUBBISH, |place, places| {
            *place = can;
            places.into_iter().zip(words).for_each(|(place, word)| *place = word);
            0
        })
    }

    #[test]
    fn the_words_are_total_amount_due_and_choice() {
        let quote = Quote { total: 7, due: 6, choice: 5 };
        assert_eq!(written(1, [7, 6, 5]), Ok(Ok(Some(quote))));
        assert_eq!(written(0, [0; 3]), Ok(Ok(None)));
        assert_eq!(written(1, [0; 3]), Ok(Ok(Some(Quote { total: 0, due: 0, choice: 0 }))));
        assert_eq!(lend(RUBBISH, |_, _| 17), Ok(Err(17)));
    }

    #[test]
    fn words_without_a_meaning_are_told() {
        let told = |can, words| written(can, words).unwrap_err();
        assert_eq!(told(2, [0; 3]), "whether there is a plant is 2, not 0 or 1");
        assert_eq!(told(0, [7, 0, 0]), "cannot, and the other places are 7 0 0, not 0");
        assert_eq!(told(0, [0, 7, 0]), "cannot, and the other places are 0 7 0, not 0");
        assert_eq!(told(0, [0, 0, 7]), "cannot, and the other places are 0 0 7, not 0");
    }

    /// What is not written is rubbish, which is another one each time.
    #[test]
    fn each_word_has_to_be_written() {
        for can in [0, 1] {
            for left in 0..3 {
                let told = lend(RUBBISH, |place, places| {
                    *place = can;
                    let written =
                        places.into_iter().enumerate().filter(|(place, _)| *place != left);
                    written.for_each(|(_, word)| *word = 0);
                    0
                });
                assert!(told.is_err(), "{can} {left}");
            }
        }
        let told = lend(RUBBISH, |_, places| {
            places.into_iter().for_each(|place| *place = 0);
            0
        });
        assert!(told.unwrap_err().starts_with("whether there is a plant is "));
    }

    /// Whatever is written at a place, the rubbish there or its complement is another.
    #[test]
    fn a_refusal_leaves_each_place() {
        for place in 0..4 {
            for word in [0, 1, RUBBISH, RUBBISH ^ 1, RUBBISH ^ 3, RUBBISH ^ 5] {
                let told = lend(RUBBISH, |can, [total, due, choice]| {
                    match place {
                        0 => *can = word as u32,
                        1 => *total = word,
                        2 => *due = word,
                        _ => *choice = word,
                    }
                    18
                });
                let due = format!("refused 18, and place {place} was written");
                assert_eq!(told.unwrap_err(), due);
            }
        }
    }

    #[test]
    fn a_word_that_is_not_lent_is_told() {
        let change: [fn(&mut Lent); 6] = [
            |lent| lent.can[0] ^= 1,
            |lent| lent.can[2] ^= 1,
            |lent| lent.words[0] ^= 1,
            |lent| lent.words[2] ^= 1,
            |lent| lent.words[4] ^= 1,
            |lent| lent.words[6] ^= 1,
        ];
        for change in change {
            for number in [0, 18] {
                let mut lent = Lent::new(RUBBISH);
                *lent.lend().0 = u32::from(number == 0);
                change(&mut lent);
                let told = lent.quoted(number).unwrap_err();
                assert_eq!(told, "a word was written that is not lent");
            }
        }
    }

    #[test]
    fn rubbish_that_plays_a_part_is_told() {
        let told = lend(RUBBISH, |can, [total, due, choice]| {
            (*can, *total, *due, *choice) = (1, *total & 1, 0, 0);
            0
        });
        assert_eq!(told.unwrap_err(), "over other rubbish the answer is another");
    }
}
