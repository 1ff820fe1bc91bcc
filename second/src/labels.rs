//! Label bytes: the stretch itself, from the sheet or from the document.

use crate::trees::{Document, Sheet};

/// The label with this number, counted from 1 through the sheet and on through the document.
pub fn label<'a>(sheet: &'a Sheet, document: &'a Document, number: u64) -> Option<&'a [u8]> {
    let mut own_number: u64 = 0;
    for label in sheet.labels.iter().chain(&document.labels) {
        own_number += 1;
        if own_number == number {
            return Some(label);
        }
    }
    None
}
