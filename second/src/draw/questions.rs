//! Whole questions of a letter: about half are sound, the others damaged by aim or at random.

use super::aims::{aim, aims_of, damage_after, scramble_or_clear};
use super::drafts::{draft, enough_room, too_little_room, written};
use super::effort;
use super::line_faults::edit;
use super::sheets::{size_for, Size};
use super::tables::make_unfair;
use crate::answers::{answer, Answer, Outcome};
use crate::kinds::{kinds_of, CLIPPED_ONLY_BELOW, CUTS_AMONG_SEVERAL, LAST_ALONE};
use crate::line_answers::AS_LONG_AS_CAN_BE;
use crate::numbers::{Judged, Refusal, UNFAIR};
use crate::question::{Part, Question, LETTERS};
use crate::random::Random;

/// Microseconds that most questions may take, and that a few may take.
const USUAL_EFFORT: f64 = 60_000.0;
const GREAT_EFFORT: f64 = 1_000_000.0;

/// So often a kind of answer is tried for; the rarest comes once in some hundred.
const MOST_TRIES: usize = 5_000;

/// A source of questions, for one letter or several.
pub struct Source {
    random: Random,
    /// For each letter, how often a refusal was aimed at, and a kind of answer wanted.
    aimed: [usize; LETTERS.len()],
    wanted: [usize; LETTERS.len()],
}

impl Source {
    pub fn new(seed: u64) -> Source {
        Source {
            random: Random::new(seed),
            aimed: [0; LETTERS.len()],
            wanted: [0; LETTERS.len()],
        }
    }

    /// A question of this letter, and this program's own answer to it.
    pub fn next_of(&mut self, letter: u8) -> (Question, Answer) {
        let is_it = |&l: &u8| l == letter;
        let turn = LETTERS.iter().position(is_it).expect("a known letter");
        match self.random.below(8) {
            0 | 1 => {
                let size = size_for(&mut self.random, letter);
                self.sound(letter, size)
            }
            2 | 3 => {
                let kind = self.next_kind(turn);
                self.done(letter, kind)
            }
            4..=6 => {
                let aim = self.next_aim(turn);
                self.refused(letter, aim)
            }
            _ => self.scrambled(letter),
        }
    }

    /// The kinds of answer take turns.
    fn next_kind(&mut self, turn: usize) -> &'static str {
        let kinds = kinds_of(LETTERS[turn]);
        self.wanted[turn] += 1;
        kinds[self.wanted[turn] % kinds.len()]
    }

    /// The refusals take turns as well; those that are judged last come three times as often, and faults in lines nine
    /// times, since there are so many kinds of them.
    fn next_aim(&mut self, turn: usize) -> Refusal {
        let mut aims = aims_of(LETTERS[turn]);
        let is_late = |aim: &Refusal| aim.number >= 10 || aim.judged == Judged::Line;
        let late = aims.clone().into_iter().filter(is_late);
        aims.extend(late.clone());
        aims.extend(late);
        let of_lines = aims.clone().into_iter();
        let faults = of_lines.filter(|aim| aim.judged == Judged::Fault);
        aims.extend(faults.clone());
        aims.extend(faults);
        self.aimed[turn] += 1;
        aims[self.aimed[turn] % aims.len()]
    }

    /// Sound bytes and numbers; a table may be unfair, and that comes out in the answer.
    fn sound(&mut self, letter: u8, size: Size) -> (Question, Answer) {
        loop {
            let mut draft = draft(&mut self.random, letter, size);
            if self.random.one_in(5) {
                make_unfair(&mut self.random, &draft.sheet, &mut draft.table);
            }
            let mut question = written(&mut self.random, &draft);
            if self.takes_too_long(&question) {
                continue;
            }
            question.room = enough_room(&mut self.random, &question);
            let answer = answer(&question);
            return (question, answer);
        }
    }

    /// Draws until the answer is of this kind, or gives up and takes what comes.
    fn done(&mut self, letter: u8, kind: &'static str) -> (Question, Answer) {
        for _ in 1..MOST_TRIES {
            let size = match kind {
                CUTS_AMONG_SEVERAL | CLIPPED_ONLY_BELOW => Size::Tangled,
                LAST_ALONE => Size::Many,
                AS_LONG_AS_CAN_BE => Size::Full,
                _ => size_for(&mut self.random, letter),
            };
            let (question, answer) = self.sound(letter, size);
            if answer.outcome == Outcome::Done(kind) {
                return (question, answer);
            }
        }
        self.sound(letter, Size::Small)
    }

    /// Draws until the answer is the refusal that is aimed at.
    fn refused(&mut self, letter: u8, refusal: Refusal) -> (Question, Answer) {
        loop {
            let size = size_for(&mut self.random, letter);
            let mut draft = draft(&mut self.random, letter, size);
            if refusal.number == UNFAIR {
                make_unfair(&mut self.random, &draft.sheet, &mut draft.table);
            }
            let mut question = written(&mut self.random, &draft);
            let aimed =
                refusal.number == UNFAIR || aim(&mut self.random, &mut question, &draft, refusal);
            if self.random.one_in(2) {
                damage_after(&mut self.random, &mut question, refusal.judged);
            }
            if !aimed || self.takes_too_long(&question) {
                continue;
            }
            if refusal.judged == Judged::Room {
                question.room = too_little_room(&mut self.random, &question);
            }
            let answer = answer(&question);
            if answer.outcome == Outcome::Refused(refusal) {
                return (question, answer);
            }
        }
    }

    /// Some bytes changed in one part, and perhaps more behind; the answer is whatever it is.
    fn scrambled(&mut self, letter: u8) -> (Question, Answer) {
        loop {
            let size = size_for(&mut self.random, letter);
            let mut draft = draft(&mut self.random, letter, size);
            if self.random.one_in(2) {
                make_unfair(&mut self.random, &draft.sheet, &mut draft.table);
            }
            let mut question = written(&mut self.random, &draft);
            self.scramble_some_part(&mut question);
            if self.takes_too_long(&question) {
                continue;
            }
            if self.random.one_in(2) {
                question.room = enough_room(&mut self.random, &question);
            }
            let answer = answer(&question);
            return (question, answer);
        }
    }

    fn scramble_some_part(&mut self, question: &mut Question) {
        if question.has(Part::Line) && !self.random.one_in(3) {
            return edit(&mut self.random, &mut question.line);
        }
        let (part, judged) = match self.random.below(3) {
            0 if question.has(Part::Table) => (&mut question.table, Judged::Table),
            1 if question.has(Part::Document) => (&mut question.document, Judged::Document),
            0 | 1 if question.has(Part::Pattern) => (&mut question.pattern, Judged::Pattern),
            _ => (&mut question.sheet, Judged::Sheet),
        };
        scramble_or_clear(&mut self.random, part);
        if self.random.one_in(3) {
            damage_after(&mut self.random, question, judged);
        }
    }

    fn takes_too_long(&mut self, question: &Question) -> bool {
        let most = match self.random.one_in(10) {
            true => GREAT_EFFORT,
            false => USUAL_EFFORT,
        };
        effort::of(question) > most
    }
}
