//! Reading bytes: sheet, table, document and pattern, judged from the front.
//! Each function gives what the bytes hold, or the first number that they draw.

use crate::numbers::*;
use crate::trees::{planted, Document, Entry, Node, Pattern, Sheet, Step};

struct Reader<'a> {
    bytes: &'a [u8],
    at: usize,
}

impl Reader<'_> {
    fn byte(&mut self) -> Result<u8, u8> {
        let byte = *self.bytes.get(self.at).ok_or(ENDS)?;
        self.at += 1;
        Ok(byte)
    }

    fn two_bytes(&mut self) -> Result<usize, u8> {
        let low = self.byte()? as usize;
        let high = self.byte()? as usize;
        Ok(low + 256 * high)
    }

    fn eight_bytes(&mut self) -> Result<u64, u8> {
        let mut number = 0;
        for i in 0..8 {
            number |= (self.byte()? as u64) << (8 * i);
        }
        Ok(number)
    }

    fn end(&self) -> Result<(), u8> {
        if self.at < self.bytes.len() {
            return Err(REMAINS);
        }
        Ok(())
    }
}

pub fn sheet(bytes: &[u8]) -> Result<Sheet, u8> {
    let mut reader = Reader { bytes, at: 0 };
    let label_count = reader.byte()? as usize;
    let labels = labels(&mut reader, label_count, &[])?;
    let pattern_count = reader.byte()? as usize;
    if pattern_count > 64 {
        return Err(COUNT);
    }
    let mut patterns = Vec::new();
    for _ in 0..pattern_count {
        patterns.push(planted(&steps(&mut reader, labels.len())?));
    }
    reader.end()?;
    Ok(Sheet { labels, patterns })
}

/// The table's bytes only; whether it is fair is judged after this (see `routing::fair`).
pub fn table(bytes: &[u8], sheet: &Sheet) -> Result<Vec<Entry>, u8> {
    let mut reader = Reader { bytes, at: 0 };
    let entry_count = reader.byte()? as usize;
    if entry_count > 64 {
        return Err(COUNT);
    }
    let mut entries = Vec::new();
    for _ in 0..entry_count {
        let members = reader.eight_bytes()?;
        let pattern = planted(&steps(&mut reader, sheet.labels.len())?);
        entries.push(Entry { members, pattern });
    }
    reader.end()?;
    Ok(entries)
}

/// A pattern by itself: a step count and its steps, with the sheet's labels.
pub fn pattern(bytes: &[u8], sheet: &Sheet) -> Result<Pattern, u8> {
    let mut reader = Reader { bytes, at: 0 };
    let pattern = planted(&steps(&mut reader, sheet.labels.len())?);
    reader.end()?;
    Ok(pattern)
}

pub fn document(bytes: &[u8], sheet: &Sheet) -> Result<Document, u8> {
    let mut reader = Reader { bytes, at: 0 };
    let label_count = reader.byte()? as usize;
    let highest = sheet.labels.len() + label_count;
    if highest > 255 {
        return Err(COUNT);
    }
    let labels = labels(&mut reader, label_count, &sheet.labels)?;
    let node_count = reader.two_bytes()?;
    if node_count == 0 || node_count > 1024 {
        return Err(COUNT);
    }
    let mut nodes = Vec::new();
    for number in 1..=node_count {
        nodes.push(node(&mut reader, number, highest)?);
    }
    reader.end()?;
    Ok(Document { labels, nodes })
}

/// So many labels, none of them among the `others` or twice.
fn labels(reader: &mut Reader, count: usize, others: &[Vec<u8>]) -> Result<Vec<Vec<u8>>, u8> {
    let mut labels = Vec::new();
    for _ in 0..count {
        let length = reader.byte()?;
        if length == 0 || length > 60 {
            return Err(LENGTH);
        }
        let mut label = Vec::new();
        for _ in 0..length {
            label.push(reader.byte()?);
        }
        if others.contains(&label) || labels.contains(&label) {
            return Err(REPEATED);
        }
        labels.push(label);
    }
    Ok(labels)
}

fn steps(reader: &mut Reader, highest_label: usize) -> Result<Vec<Step>, u8> {
    let count = reader.byte()?;
    if count > 16 {
        return Err(COUNT);
    }
    let mut steps = Vec::new();
    for _ in 0..count {
        let step = step(reader, &steps, highest_label)?;
        steps.push(step);
    }
    Ok(steps)
}

fn step(reader: &mut Reader, before: &[Step], highest_label: usize) -> Result<Step, u8> {
    let parent = reader.byte()? as usize;
    if !is_just_before_or_above(before, parent) {
        return Err(PARENT);
    }
    let axis = reader.byte()?;
    if axis > 1 {
        return Err(AXIS);
    }
    let near_root = |s: &Step| s.parent == 0 && !s.far;
    if parent == 0 && axis == 0 && before.iter().any(near_root) {
        return Err(SECOND_NEAR);
    }
    let label = reader.byte()?;
    if label as usize > highest_label {
        return Err(LABEL);
    }
    Ok(Step {
        parent,
        far: axis == 1,
        label,
    })
}

/// Is it the step just before, or one above that, up to the root?
fn is_just_before_or_above(before: &[Step], parent: usize) -> bool {
    let mut place = before.len();
    while place != parent && place != 0 {
        place = before[place - 1].parent;
    }
    place == parent
}

fn node(reader: &mut Reader, number: usize, highest_label: usize) -> Result<Node, u8> {
    let parent = reader.two_bytes()?;
    // Only the first node stands below the top; every other below an earlier node.
    let allowed = if number == 1 {
        parent == 0
    } else {
        1 <= parent && parent < number
    };
    if !allowed {
        return Err(PARENT);
    }
    let label = reader.byte()?;
    if label == 0 || label as usize > highest_label {
        return Err(LABEL);
    }
    Ok(Node { parent, label })
}

#[cfg(test)]
mod tests {
    use super::*;

    fn number(result: Result<Sheet, u8>) -> u8 {
        result.err().unwrap_or(0)
    }

    fn beside_nothing(bytes: &[u8]) -> u8 {
        let empty = sheet(&[0, 0]).unwrap();
        document(bytes, &empty).err().unwrap_or(0)
    }

    #[test]
    fn a_field_is_judged_before_what_follows() {
        assert_eq!(number(sheet(&[])), 1);
        assert_eq!(number(sheet(&[0, 0x41])), 5);
        assert_eq!(number(sheet(&[0, 1, 0x11])), 5);
        assert_eq!(number(sheet(&[1, 0x3d])), 3);
        assert_eq!(number(sheet(&[2, 1, 7, 1, 7])), 4);
        assert_eq!(number(sheet(&[2, 1, 7, 1])), 1);
        assert_eq!(number(sheet(&[0, 1, 2, 0, 0, 0, 0, 0])), 9);
        assert_eq!(number(sheet(&[0, 1, 2, 0, 0, 0, 0, 2])), 7);
        assert_eq!(number(sheet(&[0, 1, 1, 1])), 6);
        assert_eq!(number(sheet(&[0, 1, 1, 0, 0, 1])), 8);
        assert_eq!(number(sheet(&[0, 0, 0])), 2);
        assert_eq!(beside_nothing(&[0, 0]), 1);
        assert_eq!(beside_nothing(&[0, 0, 0]), 5);
        assert_eq!(beside_nothing(&[1, 1, 7, 1, 0, 0, 0, 0]), 8);
        assert_eq!(beside_nothing(&[1, 1, 7, 1, 0, 0, 1]), 6);
    }

    #[test]
    fn parents_are_just_before_or_above() {
        let with_parents = |parents: [u8; 4]| {
            let mut bytes = vec![0, 1, 4];
            for parent in parents {
                bytes.extend([parent, 1, 0]);
            }
            number(sheet(&bytes))
        };
        assert_eq!(with_parents([0, 1, 2, 1]), 0);
        assert_eq!(with_parents([0, 1, 1, 2]), 6);
        assert_eq!(with_parents([0, 1, 2, 0]), 0);
        assert_eq!(with_parents([0, 1, 2, 4]), 6);
        assert_eq!(with_parents([1, 1, 2, 3]), 6);
    }

    #[test]
    fn a_pattern_is_judged_from_the_front() {
        let one_label = sheet(&[1, 1, 7, 0]).unwrap();
        let number = |bytes: &[u8]| pattern(bytes, &one_label).err().unwrap_or(0);
        assert_eq!(number(&[]), 1);
        assert_eq!(number(&[0]), 0);
        assert_eq!(number(&[0, 0]), 2);
        assert_eq!(number(&[17]), 5);
        assert_eq!(number(&[2, 0, 0, 1, 2]), 6);
        assert_eq!(number(&[2, 0, 0, 1, 0, 2]), 7);
        assert_eq!(number(&[2, 0, 0, 1, 0, 0]), 9);
        assert_eq!(number(&[1, 0, 0, 2, 0]), 8);
        assert_eq!(number(&[1, 0, 0, 1, 0]), 2);
    }

    #[test]
    fn labels_of_sheet_and_document_fit_in_255() {
        let mut bytes = vec![255];
        for i in 0..=254 {
            bytes.extend([1, i]);
        }
        bytes.push(0);
        let full = sheet(&bytes).unwrap();
        assert_eq!(document(&[1], &full).err(), Some(5));
        assert!(document(&[0, 1, 0, 0, 0, 255], &full).is_ok());
    }
}
