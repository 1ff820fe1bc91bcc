//! Lines (#102): a line is judged and read by a sheet's labels, and a pattern is written as one.

use crate::beginnings::{verdict, Verdict, BARRED};
use crate::meanings::{meanings, Branches};
use crate::notation::text;
use crate::numbers::{Judged, Refusal, COUNT};
use crate::numbers::{NOT_A_LINE, NOT_WRITABLE, SECOND_NEAR, UNKNOWN_LABEL};
use crate::trees::{listed, size, Branch, Pattern};

/// No longer line is read.
pub const LONGEST: usize = 1_024;

/// Why the bytes are not a line that is read, and the place that comes with 13.
pub fn not_a_line(line: &[u8]) -> Option<(Judged, usize)> {
    let not = match verdict(line) {
        Verdict::Sound if line.len() <= LONGEST => return None,
        Verdict::Sound => (Judged::Longer, LONGEST),
        Verdict::Fault(place) if place < LONGEST => (Judged::Fault, place),
        Verdict::Early if line.len() <= LONGEST => (Judged::Early, line.len()),
        Verdict::Fault(_) | Verdict::Early => (Judged::Late, LONGEST),
    };
    Some(not)
}

/// The pattern that a line stands for.
pub fn read(line: &[u8], labels: &[Vec<u8>]) -> Result<Pattern, Refusal> {
    let refused = not_a_line(line);
    let mut all = match line.len() <= LONGEST {
        true => meanings(line),
        false => Vec::new(),
    };
    // The rules from the front and the places from the end agree, and a line has one meaning.
    let readings = if refused.is_none() { 1 } else { 0 };
    assert_eq!(all.len(), readings, "{}", line.escape_ascii());
    if let Some((judged, _)) = refused {
        return Err(refusal(judged, NOT_A_LINE));
    }
    let of_line = |number| refusal(Judged::Line, number);
    let meaning = all.pop().expect("a meaning");
    let pattern = labelled(line, &meaning, labels).ok_or(of_line(UNKNOWN_LABEL))?;
    if size(&pattern) > 16 {
        return Err(of_line(COUNT));
    }
    if pattern.iter().filter(|branch| !branch.far).count() > 1 {
        return Err(of_line(SECOND_NEAR));
    }
    Ok(pattern)
}

fn refusal(judged: Judged, number: u8) -> Refusal {
    Refusal { judged, number }
}

/// The branches with the sheet's numbers for their names; none if a label is not the sheet's.
fn labelled(line: &[u8], branches: &Branches, labels: &[Vec<u8>]) -> Option<Pattern> {
    let mut pattern = Vec::new();
    let mut left = branches;
    while let Some(row) = left {
        let rest = &row.first.rest;
        pattern.push(Branch {
            far: row.first.far,
            label: label_number(&line[rest.name.clone()], labels)?,
            below: labelled(line, &rest.below, labels)?,
        });
        left = &row.others;
    }
    Some(pattern)
}

/// * is any, whatever the sheet's labels are: one that is a single * can't be read.
fn label_number(name: &[u8], labels: &[Vec<u8>]) -> Option<u8> {
    if name == b"*" {
        return Some(0);
    }
    let place = labels.iter().position(|label| label == name)?;
    Some(place as u8 + 1)
}

pub fn is_writable(label: &[u8]) -> bool {
    !label.iter().any(|byte| BARRED.contains(byte))
}

/// The line of a pattern, in document 01's form.
pub fn written(pattern: &Pattern, labels: &[Vec<u8>]) -> Result<Vec<u8>, Refusal> {
    for step in listed(pattern) {
        if step.label > 0 && !is_writable(&labels[step.label as usize - 1]) {
            return Err(refusal(Judged::Writing, NOT_WRITABLE));
        }
    }
    let line = text(pattern, labels);
    // What is written reads back as the same steps.
    assert_eq!(read(&line, labels).as_ref(), Ok(pattern));
    Ok(line)
}
