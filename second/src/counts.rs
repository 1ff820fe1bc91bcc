//! What came up: counts by letter and number, by the part that was refused, by kind of answer.

use crate::answers::Outcome;
use crate::draw::aims_of;
use crate::kinds::kinds_of;
use crate::numbers::{refusals_of, Refusal, ALL_JUDGED};
use std::collections::BTreeMap;

/// From so many questions on, everything that can come up must have.
pub const ENOUGH: usize = 3_000;

pub struct Counts {
    letters: Vec<u8>,
    of: BTreeMap<(u8, Outcome), usize>,
}

impl Counts {
    pub fn new(letters: &[u8]) -> Counts {
        Counts {
            letters: letters.to_vec(),
            of: BTreeMap::new(),
        }
    }

    pub fn add(&mut self, letter: u8, outcome: Outcome) {
        *self.of.entry((letter, outcome)).or_default() += 1;
    }

    fn count(&self, letter: u8, outcome: Outcome) -> usize {
        *self.of.get(&(letter, outcome)).unwrap_or(&0)
    }

    pub fn done(&self, letter: u8) -> usize {
        let kinds = kinds_of(letter).iter();
        kinds
            .map(|kind| self.count(letter, Outcome::Done(kind)))
            .sum()
    }

    /// Everything that can come up for a letter and didn't.
    pub fn missing(&self) -> Vec<String> {
        let mut missing = Vec::new();
        for &letter in &self.letters {
            let refusals = aims_of(letter).into_iter().map(Outcome::Refused);
            let kinds = kinds_of(letter).iter().map(|kind| Outcome::Done(kind));
            for outcome in refusals.chain(kinds) {
                if self.count(letter, outcome) == 0 {
                    missing.push(format!("{}: {outcome:?}", letter as char));
                }
            }
        }
        missing
    }

    pub fn print(&self) {
        self.print_head("number given back");
        for number in 0..=15 {
            self.print_row(&number.to_string(), |letter| self.by_number(letter, number));
        }
        println!();
        self.print_head("refused in the");
        for judged in ALL_JUDGED {
            for &number in refusals_of(judged) {
                let refusal = Refusal { judged, number };
                let name = format!("{judged:?} {number}").to_lowercase();
                self.print_row(&name, |letter| self.by_refusal(letter, refusal));
            }
        }
        println!();
        println!("done, by kind of answer");
        for &letter in &self.letters {
            for kind in kinds_of(letter) {
                let count = self.count(letter, Outcome::Done(kind));
                println!("  {} {kind:26}{count:6}", letter as char);
            }
        }
    }

    /// None where the letter can't give this number.
    fn by_number(&self, letter: u8, number: u8) -> Option<usize> {
        if number == 0 {
            return Some(self.done(letter));
        }
        let aims = aims_of(letter).into_iter();
        let own: Vec<Refusal> = aims.filter(|aim| aim.number == number).collect();
        if own.is_empty() {
            return None;
        }
        let counts = own
            .iter()
            .map(|&aim| self.count(letter, Outcome::Refused(aim)));
        Some(counts.sum())
    }

    fn by_refusal(&self, letter: u8, refusal: Refusal) -> Option<usize> {
        let can = aims_of(letter).contains(&refusal);
        can.then(|| self.count(letter, Outcome::Refused(refusal)))
    }

    fn print_head(&self, name: &str) {
        print!("{name:18}");
        for &letter in &self.letters {
            print!("{:>6}", letter as char);
        }
        println!();
    }

    /// A point stands where nothing can come up; where nothing can for any of the letters, there is no row.
    fn print_row(&self, name: &str, count: impl Fn(u8) -> Option<usize>) {
        let counts: Vec<Option<usize>> = self.letters.iter().map(|&l| count(l)).collect();
        if counts.iter().all(|count| count.is_none()) {
            return;
        }
        print!("  {name:16}");
        for count in counts {
            match count {
                Some(count) => print!("{count:6}"),
                None => print!("{:>6}", "."),
            }
        }
        println!();
    }
}
