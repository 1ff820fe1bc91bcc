//! A part as a list of its fields, so that damage can be aimed at one of them.

use crate::trees::{listed, Branch, Document, Entry, Sheet};

#[derive(Clone, Copy, PartialEq, Eq, Debug)]
pub enum Kind {
    LabelCount,
    LabelLength,
    LabelBytes,
    PatternCount,
    EntryCount,
    Members,
    StepCount,
    Parent,
    Axis,
    Label,
    NodeCount,
    NodeParent,
    NodeLabel,
    /// Bytes behind the last section.
    Behind,
}

#[derive(Clone, Debug)]
pub struct Field {
    pub kind: Kind,
    pub bytes: Vec<u8>,
}

pub fn joined(fields: &[Field]) -> Vec<u8> {
    fields
        .iter()
        .flat_map(|field| field.bytes.clone())
        .collect()
}

pub fn of_sheet(sheet: &Sheet) -> Vec<Field> {
    let mut fields = Vec::new();
    add_labels(&mut fields, &sheet.labels);
    add(
        &mut fields,
        Kind::PatternCount,
        &[sheet.patterns.len() as u8],
    );
    for pattern in &sheet.patterns {
        add_pattern(&mut fields, pattern);
    }
    fields
}

pub fn of_table(entries: &[Entry]) -> Vec<Field> {
    let mut fields = Vec::new();
    add(&mut fields, Kind::EntryCount, &[entries.len() as u8]);
    for entry in entries {
        add(&mut fields, Kind::Members, &entry.members.to_le_bytes());
        add_pattern(&mut fields, &entry.pattern);
    }
    fields
}

pub fn of_document(document: &Document) -> Vec<Field> {
    let mut fields = Vec::new();
    add_labels(&mut fields, &document.labels);
    let count = document.nodes.len() as u16;
    add(&mut fields, Kind::NodeCount, &count.to_le_bytes());
    for node in &document.nodes {
        let parent = node.parent as u16;
        add(&mut fields, Kind::NodeParent, &parent.to_le_bytes());
        add(&mut fields, Kind::NodeLabel, &[node.label]);
    }
    fields
}

pub fn of_pattern(pattern: &[Branch]) -> Vec<Field> {
    let mut fields = Vec::new();
    add_pattern(&mut fields, pattern);
    fields
}

fn add(fields: &mut Vec<Field>, kind: Kind, bytes: &[u8]) {
    let bytes = bytes.to_vec();
    fields.push(Field { kind, bytes });
}

fn add_labels(fields: &mut Vec<Field>, labels: &[Vec<u8>]) {
    add(fields, Kind::LabelCount, &[labels.len() as u8]);
    for label in labels {
        add(fields, Kind::LabelLength, &[label.len() as u8]);
        add(fields, Kind::LabelBytes, label);
    }
}

fn add_pattern(fields: &mut Vec<Field>, pattern: &[Branch]) {
    let steps = listed(pattern);
    add(fields, Kind::StepCount, &[steps.len() as u8]);
    for step in steps {
        add(fields, Kind::Parent, &[step.parent as u8]);
        add(fields, Kind::Axis, &[step.far as u8]);
        add(fields, Kind::Label, &[step.label]);
    }
}
