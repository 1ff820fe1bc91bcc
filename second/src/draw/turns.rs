//! Whose turn it is: the letters come one after the other, each from its source.

use super::questions::Source;
use crate::answers::Answer;
use crate::question::{Question, LETTERS};

/// So many of the letters have one source together. Each later one has its own, so that the questions of a seed to the
/// earlier letters stay as they are when letters are added.
const TOGETHER: usize = 11;

/// Draws one question after the other.
pub struct Draw {
    letters: Vec<u8>,
    asked: usize,
    together: Source,
    alone: Vec<Source>,
}

impl Draw {
    pub fn new(seed: u64) -> Draw {
        Draw::of(&LETTERS, seed)
    }

    /// Only these letters take turns.
    pub fn of(letters: &[u8], seed: u64) -> Draw {
        let own = LETTERS[TOGETHER..].iter();
        Draw {
            letters: letters.to_vec(),
            asked: 0,
            together: Source::new(seed),
            alone: own.map(|&l| Source::new(own_seed(seed, l))).collect(),
        }
    }

    /// The next question, and this program's own answer to it.
    pub fn next(&mut self) -> (Question, Answer) {
        let letter = self.letters[self.asked % self.letters.len()];
        self.asked += 1;
        self.next_of(letter)
    }

    /// A question of this letter, whosever turn it is.
    pub fn next_of(&mut self, letter: u8) -> (Question, Answer) {
        let is_it = |&l: &u8| l == letter;
        let source = match LETTERS[TOGETHER..].iter().position(is_it) {
            Some(place) => &mut self.alone[place],
            None => &mut self.together,
        };
        source.next_of(letter)
    }
}

fn own_seed(seed: u64, letter: u8) -> u64 {
    seed ^ (letter as u64) << 56
}
