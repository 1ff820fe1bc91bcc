//! The answers about lines: one that is read, and patterns and subscriptions that are written.

use crate::answers::{check_room, lent_bytes, read_sheet, refusal, subscription, Values};
use crate::lines::{is_writable, read, written, LONGEST};
use crate::numbers::{Judged, Refusal};
use crate::question::Question;
use crate::reading;
use crate::trees::{self, size, Branch, Pattern, Sheet};

/// The kind of a line that is as long as it can be, read or written.
pub const AS_LONG_AS_CAN_BE: &str = "1,024 bytes";

/// The kinds of lines that are read, and of lines that are written.
pub const READ_KINDS: [&str; 5] = [
    "the dot",
    "as it is written",
    "in another form",
    "16 steps",
    AS_LONG_AS_CAN_BE,
];
pub const WRITTEN_KINDS: [&str; 5] = [
    "the dot",
    "without brackets",
    "with brackets",
    "beside one not writable",
    AS_LONG_AS_CAN_BE,
];

pub fn read_line(question: &Question) -> Result<Values, Refusal> {
    let sheet = read_sheet(question)?;
    let pattern = read(&question.line, &sheet.labels)?;
    // Its labels have been read, so they can be written; that it reads back is checked there.
    let line = written(&pattern, &sheet.labels).expect("labels that are writable");
    let bytes = trees::written(&pattern);
    check_room(&bytes, question.room)?;
    let kind = match &question.line[..] {
        long if long.len() == LONGEST => AS_LONG_AS_CAN_BE,
        _ if size(&pattern) == 16 => "16 steps",
        b"." => "the dot",
        same if same == line => "as it is written",
        _ => "in another form",
    };
    let lent = lent_bytes(&bytes, question.room);
    Ok(Values(format!(" 0 {} {lent}", bytes.len()), kind))
}

pub fn write_pattern(question: &Question) -> Result<Values, Refusal> {
    let sheet = read_sheet(question)?;
    let pattern = reading::pattern(&question.pattern, &sheet)
        .map_err(|number| refusal(Judged::Pattern, number))?;
    as_line(question, &sheet, &pattern)
}

pub fn write_subscription(question: &Question) -> Result<Values, Refusal> {
    let sheet = read_sheet(question)?;
    let pattern = subscription(&sheet, question.numbers[0])?;
    as_line(question, &sheet, pattern)
}

fn as_line(question: &Question, sheet: &Sheet, pattern: &Pattern) -> Result<Values, Refusal> {
    let line = written(pattern, &sheet.labels)?;
    check_room(&line, question.room)?;
    let kind = match &line[..] {
        long if long.len() == LONGEST => AS_LONG_AS_CAN_BE,
        b"." => "the dot",
        _ if !sheet.labels.iter().all(|label| is_writable(label)) => "beside one not writable",
        _ if has_several(pattern) => "with brackets",
        _ => "without brackets",
    };
    let lent = lent_bytes(&line, question.room);
    Ok(Values(format!(" {} {lent}", line.len()), kind))
}

fn has_several(branches: &[Branch]) -> bool {
    branches.len() > 1 || branches.iter().any(|branch| has_several(&branch.below))
}
