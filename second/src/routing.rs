//! Routes, and when a table is fair.

use crate::maps::{covers_checked, satisfies_checked};
use crate::trees::{Document, Entry, Pattern, Sheet};

/// Bit i is set if subscription i is delivered.
pub fn plain_route(sheet: &Sheet, document: &Document) -> u64 {
    let mut delivered = 0;
    for (i, pattern) in sheet.patterns.iter().enumerate() {
        if satisfies_checked(document, pattern) {
            delivered |= 1 << i;
        }
    }
    delivered
}

/// Does at least one subscription take the document? No table is asked.
pub fn wanted(sheet: &Sheet, document: &Document) -> bool {
    let takes = |pattern: &Pattern| satisfies_checked(document, pattern);
    sheet.patterns.iter().any(takes)
}

/// What comes of an entry for a document.
#[derive(Clone, Copy, PartialEq, Eq, Debug)]
pub enum Found {
    NoMatch,
    /// It matches, and none of its members does.
    InVain,
    /// It matches, and some of its members do.
    Members,
}

pub struct TableRoute {
    pub delivered: u64,
    pub tried: usize,
    /// For each entry.
    pub found: Vec<Found>,
}

pub fn table_route(sheet: &Sheet, entries: &[Entry], document: &Document) -> TableRoute {
    let mut route = TableRoute {
        delivered: 0,
        tried: 0,
        found: vec![Found::NoMatch; entries.len()],
    };
    for (entry, found) in entries.iter().zip(&mut route.found) {
        route.tried += 1;
        if !satisfies_checked(document, &entry.pattern) {
            continue;
        }
        *found = Found::InVain;
        for (i, pattern) in sheet.patterns.iter().enumerate() {
            if has_member(entry, i) {
                route.tried += 1;
                if satisfies_checked(document, pattern) {
                    route.delivered |= 1 << i;
                    *found = Found::Members;
                }
            }
        }
    }
    route
}

pub fn has_member(entry: &Entry, subscription: usize) -> bool {
    entry.members >> subscription & 1 == 1
}

pub fn fair(sheet: &Sheet, entries: &[Entry]) -> bool {
    let count = sheet.patterns.len();
    for entry in entries {
        let outside = (count..64).any(|i| has_member(entry, i));
        if entry.members == 0 || outside {
            return false;
        }
    }
    (0..count).all(|i| {
        let holders: Vec<&Entry> = entries.iter().filter(|e| has_member(e, i)).collect();
        holders.len() == 1 && covers_checked(&holders[0].pattern, &sheet.patterns[i])
    })
}
