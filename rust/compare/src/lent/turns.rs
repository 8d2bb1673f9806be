//! Three places that are lent to turns: for the verdict, and for the planner's two answers.

use crate::question::Settled;
use port::{Response, Turns};

/// The places stand between others that are not lent, and the rubbish is another word at each.
const LENT: [usize; 3] = [1, 3, 5];
const WORDS: usize = 7;

struct Lent {
    words: [u32; WORDS],
    rubbish: u64,
}

impl Lent {
    fn new(rubbish: u64) -> Lent {
        Lent { words: std::array::from_fn(|index| rubbish_at(rubbish, index)), rubbish }
    }

    fn lend(&mut self) -> [&mut u32; 3] {
        let [_, forced, _, to_out, _, to_fitted, _] = &mut self.words;
        [forced, to_out, to_fitted]
    }

    /// What stands in the places after a call that gave this number. It is an error if a word has no meaning,
    /// if a word changed that is not lent, or if a refusal changed one.
    fn settled(&self, number: u32) -> Result<Settled, String> {
        let is_changed = |index: &usize| self.words[*index] != rubbish_at(self.rubbish, *index);
        let of_refusal = |index: &usize| !LENT.contains(index) || number != 0;
        if let Some(index) = (0..WORDS).filter(of_refusal).find(is_changed) {
            return Err(match LENT.iter().position(|lent| *lent == index) {
                Some(place) => format!("refused {number}, and place {place} was written"),
                None => format!("word {index} was written, which is not lent"),
            });
        }
        if number != 0 {
            return Ok(Err(number));
        }
        let [forced, to_out, to_fitted] = LENT.map(|index| self.words[index]);
        let forced = match forced {
            0 => false,
            1 => true,
            _ => return Err(format!("the verdict is {forced}, not 0 or 1")),
        };
        Ok(Ok(Turns { forced, to_out: answer(to_out)?, to_fitted: answer(to_fitted)? }))
    }
}

fn rubbish_at(rubbish: u64, index: usize) -> u32 {
    rubbish as u32 ^ index as u32
}

/// The planner's answer in a word.
fn answer(word: u32) -> Result<Option<Response>, String> {
    match word {
        0 => Ok(None),
        1 => Ok(Some(Response::Out)),
        2 => Ok(Some(Response::Fitted)),
        _ => Err(format!("an answer is {word}, not 0, 1 or 2")),
    }
}

/// Lends three places to a call that writes the verdict and the two answers there, and takes them out: over
/// this rubbish, and then over its complement, so that every word that is written shows. It is also an error
/// if the two calls differ.
pub fn lend(rubbish: u64, mut call: impl FnMut([&mut u32; 3]) -> u32) -> Result<Settled, String> {
    let mut settled = |rubbish| {
        let mut lent = Lent::new(rubbish);
        let number = call(lent.lend());
        lent.settled(number)
    };
    let (over_one, over_other) = (settled(rubbish)?, settled(!rubbish)?);
    match over_one == over_other {
        true => Ok(over_one),
        false => Err("over other rubbish the answer is another".to_string()),
    }
}

#[cfg(test)]
mod tests {
    use super::super::tests::RUBBISH;
    use super::*;

    /// A call that writes these words.
    fn written(words: [u32; 3]) -> Result<Settled, String> {
        lend(RUBBISH, |places| {
            places.into_iter().zip(words).for_each(|(place, word)| *place = word);
            0
        })
    }

    #[test]
    fn the_words_are_the_verdict_and_the_two_answers() {
        let turns = |forced, to_out, to_fitted| Ok(Ok(Turns { forced, to_out, to_fitted }));
        let [out, fitted] = [Response::Out, Response::Fitted].map(Some);
        assert_eq!(written([1, 1, 2]), turns(true, out, fitted));
        assert_eq!(written([0, 2, 0]), turns(false, fitted, None));
        assert_eq!(written([0, 0, 1]), turns(false, None, out));
        assert_eq!(lend(RUBBISH, |_| 16), Ok(Err(16)));
    }

    #[test]
    fn a_word_without_a_meaning_is_told() {
        assert_eq!(written([2, 1, 1]).unwrap_err(), "the verdict is 2, not 0 or 1");
        assert_eq!(written([1, 3, 1]).unwrap_err(), "an answer is 3, not 0, 1 or 2");
        assert_eq!(written([1, 1, 3]).unwrap_err(), "an answer is 3, not 0, 1 or 2");
    }

    /// What is not written is rubbish, which is no verdict and no answer.
    #[test]
    fn each_word_has_to_be_written() {
        let but = |left: usize| {
            lend(RUBBISH, |places| {
                let written = places.into_iter().enumerate().filter(|(place, _)| *place != left);
                written.for_each(|(_, word)| *word = 0);
                0
            })
        };
        assert!(but(0).unwrap_err().starts_with("the verdict is "));
        assert!(but(1).unwrap_err().starts_with("an answer is "));
        assert!(but(2).unwrap_err().starts_with("an answer is "));
        assert!(but(3).is_ok());
    }

    /// Whatever is written at a place, the rubbish there or its complement is another.
    #[test]
    fn a_refusal_leaves_each_place() {
        for place in 0..3 {
            for word in [0, 1, 2, rubbish_at(RUBBISH, LENT[place])] {
                let told = lend(RUBBISH, |places| {
                    *places[place] = word;
                    12
                });
                let due = format!("refused 12, and place {place} was written");
                assert_eq!(told.unwrap_err(), due);
            }
        }
    }

    #[test]
    fn a_word_that_is_not_lent_is_named() {
        for index in [0, 2, 4, 6] {
            for number in [0, 16] {
                let mut lent = Lent::new(RUBBISH);
                lent.words[index] ^= 1;
                let due = format!("word {index} was written, which is not lent");
                assert_eq!(lent.settled(number).unwrap_err(), due);
            }
        }
    }

    #[test]
    fn rubbish_that_plays_a_part_is_told() {
        let told = lend(RUBBISH, |[forced, to_out, to_fitted]| {
            (*forced, *to_out, *to_fitted) = (*forced & 1, 1, 1);
            0
        });
        assert_eq!(told.unwrap_err(), "over other rubbish the answer is another");
    }
}
