//! The notation of document 01: / near, // far, * any; one child follows at once,
//! several stand in brackets; a pattern without steps is a dot.

use crate::trees::{Branch, Pattern};

/// The pattern that a text stands for. Only for texts written in this program.
pub fn pattern(text: &str, labels: &[&str]) -> Pattern {
    let mut rest = text;
    let read = if text == "." {
        rest = "";
        Vec::new()
    } else {
        branches(&mut rest, labels)
    };
    assert!(rest.is_empty(), "not a pattern: {text}");
    read
}

fn branches(rest: &mut &str, labels: &[&str]) -> Vec<Branch> {
    if rest.starts_with('/') {
        return vec![branch(rest, labels)];
    }
    let mut several = Vec::new();
    while let Some(inside) = rest.strip_prefix('[') {
        *rest = inside;
        several.push(branch(rest, labels));
        *rest = rest.strip_prefix(']').expect("a closing bracket");
    }
    several
}

fn branch(rest: &mut &str, labels: &[&str]) -> Branch {
    let (far, after) = match rest.strip_prefix("//") {
        Some(after) => (true, after),
        None => (false, rest.strip_prefix('/').expect("an axis")),
    };
    let end = after.find(['/', '[', ']']).unwrap_or(after.len());
    let (name, after) = after.split_at(end);
    *rest = after;
    let label = if name == "*" {
        0
    } else {
        1 + labels.iter().position(|l| *l == name).expect("a label") as u8
    };
    let below = branches(rest, labels);
    Branch { far, label, below }
}

/// The text of a pattern for a reader: bytes that are not plain letters are escaped.
pub fn shown(pattern: &[Branch], labels: &[Vec<u8>]) -> String {
    text(pattern, labels).escape_ascii().to_string()
}

/// The text of a pattern, with labels as their bytes.
pub fn text(pattern: &[Branch], labels: &[Vec<u8>]) -> Vec<u8> {
    if pattern.is_empty() {
        return b".".to_vec();
    }
    text_below(pattern, labels)
}

fn text_below(branches: &[Branch], labels: &[Vec<u8>]) -> Vec<u8> {
    let of_branch = |b: &Branch| {
        let axis: &[u8] = if b.far { b"//" } else { b"/" };
        let name: &[u8] = match b.label {
            0 => b"*",
            number => &labels[number as usize - 1],
        };
        [axis, name, &text_below(&b.below, labels)].concat()
    };
    match branches {
        [only] => of_branch(only),
        several => several
            .iter()
            .flat_map(|b| [b"[", &of_branch(b)[..], b"]"].concat())
            .collect(),
    }
}
