//! Aims: which refusals a letter can give, and how a question is brought to give one.

use super::damage::{scramble, spoil, Around};
use super::drafts::{pattern_asked, Draft};
use super::fields::{joined, of_document, of_pattern, of_sheet, of_table};
use super::line_faults::{edit, line_for};
use super::to_write::make_unwritable;
use crate::numbers::{refusals_of, Judged, Refusal};
use crate::question::{parts_of, Part, Question};
use crate::random::Random;

/// Every refusal that a letter can give.
pub fn aims_of(letter: u8) -> Vec<Refusal> {
    let mut aims = Vec::new();
    let writes_lines = matches!(letter, b'V' | b'U');
    for part in parts_of(letter).expect("a known letter") {
        use Judged::*;
        let all: &[Judged] = match part {
            Part::Sheet => &[Sheet],
            Part::Table => &[Table],
            Part::Document => &[Document],
            Part::Line => &[Fault, Early, Late, Longer, Line],
            Part::Pattern => &[Pattern],
            Part::Number => &[Number],
            Part::Room if writes_lines => &[Writing, Room],
            Part::Room => &[Room],
            Part::Limit => &[],
        };
        for &judged in all {
            let numbers = refusals_of(judged).iter();
            aims.extend(numbers.map(|&number| Refusal { judged, number }));
        }
    }
    // A letter with two numbers has their refusal once.
    aims.dedup();
    aims
}

/// Puts a fault in bytes or numbers; false if the part has no place for it.
pub fn aim(random: &mut Random, question: &mut Question, draft: &Draft, aim: Refusal) -> bool {
    let of_sheet_labels = draft.sheet.labels.len();
    let (mut fields, part, taken, highest) = match aim.judged {
        Judged::Sheet => {
            let fields = of_sheet(&draft.sheet);
            (fields, &mut question.sheet, &[][..], of_sheet_labels)
        }
        Judged::Table => {
            let fields = of_table(&draft.table);
            (fields, &mut question.table, &[][..], of_sheet_labels)
        }
        Judged::Document => {
            let fields = of_document(&draft.document);
            let highest = of_sheet_labels + draft.document.labels.len();
            let taken = &draft.sheet.labels[..];
            (fields, &mut question.document, taken, highest)
        }
        Judged::Pattern => {
            // Judged before its labels are.
            if random.one_in(3) {
                use_unwritable(random, question, draft);
            }
            let fields = of_pattern(&draft.pattern);
            (fields, &mut question.pattern, &[][..], of_sheet_labels)
        }
        Judged::Number => {
            ask_beyond(random, question, draft);
            return true;
        }
        Judged::Writing => return use_unwritable(random, question, draft),
        Judged::Room => return true,
        Judged::Fault | Judged::Early | Judged::Late | Judged::Longer | Judged::Line => {
            question.line = line_for(random, &draft.sheet, aim);
            return true;
        }
    };
    let around = Around { taken, highest };
    let done = spoil(random, &mut fields, aim.number, &around);
    *part = joined(&fields);
    done
}

/// The sheet gets a label that is not writable, and the pattern to be written uses it.
fn use_unwritable(random: &mut Random, question: &mut Question, draft: &Draft) -> bool {
    let mut sheet = draft.sheet.clone();
    let Some(pattern) = pattern_asked(question, &sheet) else {
        return false;
    };
    let done = make_unwritable(random, &mut sheet, &pattern);
    question.sheet = joined(&of_sheet(&sheet));
    done
}

/// Asks for a subscription or label that doesn't exist, near the last one or far from it.
fn ask_beyond(random: &mut Random, question: &mut Question, draft: &Draft) {
    let (first, last) = if question.letter == b'L' {
        (1, draft.sheet.labels.len() + draft.document.labels.len())
    } else {
        (0, draft.sheet.patterns.len().saturating_sub(1))
    };
    let inside = random.between(first, last) as u64;
    // Among them sums that a narrower number would take for one that exists.
    let beyond = [
        0,
        last as u64 + 1,
        last as u64 + 2,
        64,
        256,
        256 + inside,
        65_536 + inside,
        1 << 32,
        (1 << 32) + 1,
        (1 << 32) + inside,
        (1 << 63) + inside,
        u64::MAX,
        u64::MAX - inside,
    ];
    let place = random.below(question.numbers.len());
    question.numbers[place] = random.pick(&beyond);
}

/// Second faults, in what is judged later.
pub fn damage_after(random: &mut Random, question: &mut Question, judged: Judged) {
    if Judged::Table > judged && random.one_in(2) {
        scramble_or_clear(random, &mut question.table);
    }
    if Judged::Document > judged && random.one_in(2) {
        scramble_or_clear(random, &mut question.document);
    }
    if question.has(Part::Pattern) && Judged::Pattern > judged && random.one_in(2) {
        scramble_or_clear(random, &mut question.pattern);
    }
    if question.has(Part::Line) && Judged::Fault > judged && random.one_in(2) {
        edit(random, &mut question.line);
    }
    if Judged::Number > judged && random.one_in(2) {
        for number in &mut question.numbers {
            let any = random.next() >> random.below(64);
            *number = random.pick(&[0, u64::MAX, any]);
        }
    }
    if Judged::Room > judged {
        question.room = random.pick(&[0, 0, 1, 3]);
    }
}

pub fn scramble_or_clear(random: &mut Random, bytes: &mut Vec<u8>) {
    if random.one_in(10) {
        bytes.clear();
    } else {
        scramble(random, bytes);
    }
}
