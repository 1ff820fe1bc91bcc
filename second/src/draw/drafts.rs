//! Drafts: sound questions before they are written as bytes.

use super::documents::document;
use super::fields::{joined, of_document, of_pattern, of_sheet, of_table};
use super::line_names::respell;
use super::lines::sound_line;
use super::sheets::{leave_one, sheet, Size};
use super::tables::{any_limit, fair_table};
use super::to_write::{longest_to_write, pattern_to_write};
use crate::building::build;
use crate::lines;
use crate::merging::merge;
use crate::question::{parts_of, Part, Question};
use crate::random::Random;
use crate::reading;
use crate::trees::{size, written_table, Document, Entry, Pattern, Sheet};

pub struct Draft {
    pub letter: u8,
    pub sheet: Sheet,
    pub table: Vec<Entry>,
    pub document: Document,
    pub line: Vec<u8>,
    pub pattern: Pattern,
    pub numbers: Vec<u64>,
    pub limit: u16,
}

/// A draft for a letter; parts that the letter doesn't have stay empty.
pub fn draft(random: &mut Random, letter: u8, size: Size) -> Draft {
    let has = |part| parts_of(letter).is_some_and(|parts| parts.contains(&part));
    let sheet = sheet(random, size);
    let mut draft = Draft {
        letter,
        table: Vec::new(),
        document: Document {
            labels: Vec::new(),
            nodes: Vec::new(),
        },
        line: Vec::new(),
        pattern: Vec::new(),
        numbers: Vec::new(),
        limit: 0,
        sheet,
    };
    if has(Part::Document) {
        draft.document = document(random, &draft.sheet);
    }
    // One match is enough, so another would hide a forgotten member.
    if letter == b'W' && random.one_in(2) {
        leave_one(random, &mut draft.sheet, &draft.document);
    }
    if has(Part::Table) {
        draft.table = fair_table(random, &draft.sheet);
    }
    if has(Part::Limit) {
        draft.limit = any_limit(random, &draft.sheet);
    }
    draft.numbers = numbers_in_range(random, &draft);
    if matches!(letter, b'N' | b'V' | b'U') {
        prepare_lines(random, &mut draft, size);
    }
    draft
}

/// Labels worth having in lines, and what is to be read or written.
fn prepare_lines(random: &mut Random, draft: &mut Draft, size: Size) {
    // The labels of the largest sheet are needed as long as they are.
    if size != Size::Full {
        let unwritable_ones = if draft.letter == b'N' { 4 } else { 10 };
        respell(random, &mut draft.sheet, unwritable_ones);
    }
    match draft.letter {
        b'N' => draft.line = sound_line(random, &draft.sheet),
        b'V' => draft.pattern = pattern_to_write(random, &draft.sheet),
        _ => {
            let long_ones = if size == Size::Full { 2 } else { 8 };
            let long = longest_to_write(random, &draft.sheet);
            let number = draft.numbers[0] as usize;
            match draft.sheet.patterns.get_mut(number) {
                Some(own) if random.one_in(long_ones) => *own = long,
                _ => {}
            }
        }
    }
}

/// The question that a draft stands for; a room is drawn later, when it is known what is written.
pub fn written(random: &mut Random, draft: &Draft) -> Question {
    Question {
        letter: draft.letter,
        sheet: joined(&of_sheet(&draft.sheet)),
        table: joined(&of_table(&draft.table)),
        document: joined(&of_document(&draft.document)),
        line: draft.line.clone(),
        pattern: joined(&of_pattern(&draft.pattern)),
        numbers: draft.numbers.clone(),
        limit: draft.limit,
        room: random.between(0, 12) as u16,
    }
}

/// As many numbers as the letter has; where the sheet has no pattern, none is in range.
fn numbers_in_range(random: &mut Random, draft: &Draft) -> Vec<u64> {
    let patterns = draft.sheet.patterns.len().max(1);
    match draft.letter {
        b'M' | b'U' => vec![random.below(patterns) as u64],
        b'C' | b'G' => two_subscriptions(random, patterns),
        b'L' => {
            let of_sheet = draft.sheet.labels.len();
            let last = of_sheet + draft.document.labels.len();
            let any = random.between(1, last);
            let next = (of_sheet + 1).min(last);
            vec![random.pick(&[1, of_sheet.max(1), next, last, any]) as u64]
        }
        _ => Vec::new(),
    }
}

/// Mostly two different ones.
fn two_subscriptions(random: &mut Random, patterns: usize) -> Vec<u64> {
    let first = random.below(patterns);
    let mut second = random.below(patterns);
    if first == second && random.below(8) > 0 {
        second = (first + 1) % patterns;
    }
    vec![first as u64, second as u64]
}

/// Room for all that is written: just enough, a little more, or very much.
pub fn enough_room(random: &mut Random, question: &Question) -> u16 {
    let needed = bytes_to_write(question);
    let more = match random.below(200) {
        0 => 65_535 - needed,
        1 => 4_000,
        2..=80 => 0,
        81..=140 => 3,
        _ => random.between(0, 40),
    };
    (needed + more) as u16
}

pub fn too_little_room(random: &mut Random, question: &Question) -> u16 {
    let needed = bytes_to_write(question).max(1);
    let any = random.below(needed);
    random.pick(&[0, needed - 1, needed - 1, any]) as u16
}

/// How many bytes the call will write; 0 where it is refused before that.
fn bytes_to_write(question: &Question) -> usize {
    let Ok(sheet) = reading::sheet(&question.sheet) else {
        return 0;
    };
    match question.letter {
        b'B' => written_table(&build(&sheet, question.limit).entries).len(),
        b'G' => {
            let pattern = |i: usize| sheet.patterns.get(question.numbers[i] as usize);
            match (pattern(0), pattern(1)) {
                (Some(p), Some(q)) => 1 + 3 * size(&merge(p, q).pattern),
                _ => 0,
            }
        }
        b'N' => {
            let pattern = lines::read(&question.line, &sheet.labels);
            pattern.map_or(0, |pattern| 1 + 3 * size(&pattern))
        }
        b'V' | b'U' => pattern_asked(question, &sheet)
            .and_then(|pattern| lines::written(&pattern, &sheet.labels).ok())
            .map_or(0, |line| line.len()),
        _ => 0,
    }
}

/// The pattern that is to be written as a line.
pub fn pattern_asked(question: &Question, sheet: &Sheet) -> Option<Pattern> {
    match question.numbers[..] {
        [] => reading::pattern(&question.pattern, sheet).ok(),
        [number, ..] => sheet.patterns.get(usize::try_from(number).ok()?).cloned(),
    }
}
