//! What a line means, worked out from its end to its front: at every place, all rests, branches and rows of branches
//! that could begin there, with where each would end. A line is whatever reaches from its front to its end.

use crate::beginnings::BARRED;
use std::ops::Range;
use std::rc::Rc;

/// A name, by its bytes' places in the line, and the branches behind it.
pub struct Rest {
    pub name: Range<usize>,
    pub below: Branches,
}

#[derive(Clone)]
pub struct Twig {
    pub far: bool,
    pub rest: Rc<Rest>,
}

/// The first branch and those behind it.
pub struct Row {
    pub first: Twig,
    pub others: Branches,
}

pub type Branches = Option<Rc<Row>>;

/// Whatever can begin at a place, each beside the place where it ends.
#[derive(Default)]
struct Here {
    rests: Vec<(usize, Rc<Rest>)>,
    branch: Vec<(usize, Twig)>,
    branches: Vec<(usize, Rc<Row>)>,
}

/// Every way to read the bytes as a line; there should be at most one.
pub fn meanings(line: &[u8]) -> Vec<Branches> {
    let mut heres: Vec<Here> = Vec::new();
    heres.resize_with(line.len() + 1, Here::default);
    for at in (0..line.len()).rev() {
        heres[at].rests = rests(line, at, &heres);
        heres[at].branch = branch(line, at, &heres);
        heres[at].branches = branches(line, at, &heres);
    }
    let whole = heres[0]
        .branches
        .iter()
        .filter(|(end, _)| *end == line.len());
    let mut all: Vec<Branches> = whole.map(|(_, row)| Some(row.clone())).collect();
    if line == b"." {
        all.push(None);
    }
    all
}

/// A label or *, and behind it branches or none.
fn rests(line: &[u8], at: usize, heres: &[Here]) -> Vec<(usize, Rc<Rest>)> {
    // Only an axis or an opening bracket stands before a rest.
    if at == 0 || !matches!(line[at - 1], b'/' | b'[') {
        return Vec::new();
    }
    let mut all = Vec::new();
    for end in name_ends(line, at) {
        let name = at..end;
        let below = None;
        all.push((end, Rc::new(Rest { name, below })));
        for (later, row) in &heres[end].branches {
            let name = at..end;
            let below = Some(row.clone());
            all.push((*later, Rc::new(Rest { name, below })));
        }
    }
    all
}

/// Behind the *, or behind each of the label bytes that stand in a row.
fn name_ends(line: &[u8], at: usize) -> Range<usize> {
    let is_barred = |byte: &u8| BARRED.contains(byte);
    let labelled = line[at..].iter().position(is_barred);
    match line[at] {
        b'*' => at + 1..at + 2,
        _ => at + 1..labelled.map_or(line.len(), |count| at + count) + 1,
    }
}

/// An axis and a rest.
fn branch(line: &[u8], at: usize, heres: &[Here]) -> Vec<(usize, Twig)> {
    let mut all = Vec::new();
    for (axis, far) in [(&b"/"[..], false), (b"//", true)] {
        if line[at..].starts_with(axis) {
            all.extend(twigs(&heres[at + axis.len()].rests, far));
        }
    }
    all
}

fn twigs(rests: &[(usize, Rc<Rest>)], far: bool) -> impl Iterator<Item = (usize, Twig)> + '_ {
    let twig = move |rest: &Rc<Rest>| Twig {
        far,
        rest: rest.clone(),
    };
    rests.iter().map(move |(end, rest)| (*end, twig(rest)))
}

/// A branch in brackets, where b means /b and .//b means //b.
fn bracketed(line: &[u8], at: usize, heres: &[Here]) -> Vec<(usize, Twig)> {
    if line[at] != b'[' {
        return Vec::new();
    }
    let mut inside = heres[at + 1].branch.clone();
    inside.extend(twigs(&heres[at + 1].rests, false));
    if line[at + 1..].starts_with(b".//") {
        inside.extend(twigs(&heres[at + 4].rests, true));
    }
    inside.retain(|(end, _)| line.get(*end) == Some(&b']'));
    for (end, _) in &mut inside {
        *end += 1;
    }
    inside
}

/// Some in brackets, then at most one without, at least one in all.
fn branches(line: &[u8], at: usize, heres: &[Here]) -> Vec<(usize, Rc<Row>)> {
    let row = |first: &Twig, others: Branches| {
        let first = first.clone();
        Rc::new(Row { first, others })
    };
    let mut all = Vec::new();
    for (end, last) in &heres[at].branch {
        all.push((*end, row(last, None)));
    }
    for (end, first) in bracketed(line, at, heres) {
        all.push((end, row(&first, None)));
        for (later, others) in &heres[end].branches {
            all.push((*later, row(&first, Some(others.clone()))));
        }
    }
    all
}
