//! What the program `table` prints for two bytes of limit and a sheet (document 01, the end of "The rose bench
//! examples"): the totals, then a line for each entry, or the refusal.

use crate::building::{build, steps_together};
use crate::notation::text;
use crate::numbers::ENDS;
use crate::reading;
use crate::routing::has_member;
use crate::trees::{Entry, Sheet};

pub fn printed(input: &[u8]) -> Vec<u8> {
    match read(input) {
        Ok((limit, sheet)) => table(&sheet, limit),
        Err(number) => format!("refused {number}\n").into_bytes(),
    }
}

/// The limit, low byte first, and behind it the sheet.
fn read(input: &[u8]) -> Result<(u16, Sheet), u8> {
    let [low, high, sheet @ ..] = input else {
        return Err(ENDS);
    };
    let sheet = reading::sheet(sheet)?;
    Ok((*low as u16 + 256 * *high as u16, sheet))
}

fn table(sheet: &Sheet, limit: u16) -> Vec<u8> {
    let built = build(sheet, limit);
    let totals = format!(
        "{} subscriptions, {} entries, {} steps, {} rounds\n",
        sheet.patterns.len(),
        built.entries.len(),
        steps_together(&built.entries),
        built.rounds
    );
    let mut lines = totals.into_bytes();
    for entry in &built.entries {
        lines.extend(members(entry).as_bytes());
        lines.extend(b": ");
        lines.extend(text(&entry.pattern, &sheet.labels));
        lines.push(b'\n');
    }
    lines
}

/// The members, ascending.
fn members(entry: &Entry) -> String {
    let numbers = (0..64).filter(|&i| has_member(entry, i));
    let words: Vec<String> = numbers.map(|i| i.to_string()).collect();
    words.join(",")
}
