//! Inputs of the program `table`: two bytes of limit and a sheet, sound, damaged, cut short or too long.

use super::fields::{joined, of_sheet};
use super::sheets::{sheet, Size};
use super::turns::Draw;
use crate::random::Random;

/// The longest sound input: a limit, 255 labels of 60 bytes and 64 patterns of 16 steps.
const LONGEST: usize = 2 + 1 + 255 * 61 + 1 + 64 * 49;

pub struct Inputs {
    random: Random,
    draw: Draw,
    drawn: usize,
}

impl Inputs {
    pub fn new(seed: u64) -> Inputs {
        let mut random = Random::new(!seed);
        let draw = Draw::new(random.next());
        let drawn = 0;
        Inputs {
            random,
            draw,
            drawn,
        }
    }

    /// The next input; most are those of a build, and the others take turns.
    pub fn next(&mut self) -> Vec<u8> {
        self.drawn += 1;
        match self.drawn % 24 {
            0 => self.cut_short(),
            8 => self.too_long(),
            16 => self.about_longest(),
            _ => self.of_build(),
        }
    }

    fn of_build(&mut self) -> Vec<u8> {
        let question = self.draw.next_of(b'B').0;
        with_limit(question.limit, &question.sheet)
    }

    /// So short that the sheet has hardly begun.
    fn cut_short(&mut self) -> Vec<u8> {
        let mut input = self.of_build();
        input.truncate(self.random.below(5));
        input
    }

    /// Bytes behind the sheet, up to the longest and beyond.
    fn too_long(&mut self) -> Vec<u8> {
        let mut input = self.of_build();
        let any = self.random.byte();
        let lengths = [LONGEST, LONGEST + 1, LONGEST + 2, 20_000, 70_000];
        let length = self.random.pick(&lengths).max(input.len());
        input.resize(length, self.random.pick(&[0, 1, any]));
        input
    }

    /// The longest sound input, or a byte less or more; nothing is merged.
    fn about_longest(&mut self) -> Vec<u8> {
        let mut input = Vec::new();
        while input.len() != LONGEST {
            let sheet = sheet(&mut self.random, Size::Full);
            input = with_limit(u16::MAX, &joined(&of_sheet(&sheet)));
        }
        let lengths = [LONGEST - 1, LONGEST, LONGEST, LONGEST + 1];
        input.resize(self.random.pick(&lengths), 0);
        input
    }
}

fn with_limit(limit: u16, sheet: &[u8]) -> Vec<u8> {
    [&limit.to_le_bytes(), sheet].concat()
}
