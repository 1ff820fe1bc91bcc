//! Patterns and documents, as they are listed in the bytes and as trees.

/// A step as it is listed: its parent's number (0 is the root), its axis, its label (0 is any).
#[derive(Clone, Copy, PartialEq, Eq, Debug)]
pub struct Step {
    pub parent: usize,
    pub far: bool,
    pub label: u8,
}

/// A step with all that stands below it. A pattern is the list of its root steps.
#[derive(Clone, PartialEq, Eq, Debug)]
pub struct Branch {
    pub far: bool,
    pub label: u8,
    pub below: Vec<Branch>,
}

pub type Pattern = Vec<Branch>;

#[derive(Clone, Debug)]
pub struct Sheet {
    pub labels: Vec<Vec<u8>>,
    pub patterns: Vec<Pattern>,
}

/// A node: the number of its parent (0 is the top above the root node) and its label.
#[derive(Clone, Copy, PartialEq, Eq, Debug)]
pub struct Node {
    pub parent: usize,
    pub label: u8,
}

#[derive(Clone, Debug)]
pub struct Document {
    pub labels: Vec<Vec<u8>>,
    pub nodes: Vec<Node>,
}

/// An entry of a table: bit i of the members stands for subscription i.
#[derive(Clone, PartialEq, Eq, Debug)]
pub struct Entry {
    pub members: u64,
    pub pattern: Pattern,
}

impl Document {
    /// The children of the top (place 0) and of every node, by its number.
    pub fn children(&self) -> Vec<Vec<usize>> {
        let mut children = vec![Vec::new(); self.nodes.len() + 1];
        for (i, node) in self.nodes.iter().enumerate() {
            children[node.parent].push(i + 1);
        }
        children
    }
}

/// The pattern that listed steps stand for.
pub fn planted(steps: &[Step]) -> Pattern {
    planted_below(steps, 0)
}

fn planted_below(steps: &[Step], parent: usize) -> Pattern {
    let mut branches = Vec::new();
    for (i, step) in steps.iter().enumerate() {
        if step.parent == parent {
            branches.push(Branch {
                far: step.far,
                label: step.label,
                below: planted_below(steps, i + 1),
            });
        }
    }
    branches
}

/// The steps of a pattern, listed in preorder.
pub fn listed(pattern: &[Branch]) -> Vec<Step> {
    let mut steps = Vec::new();
    list_below(pattern, 0, &mut steps);
    steps
}

fn list_below(branches: &[Branch], parent: usize, steps: &mut Vec<Step>) {
    for branch in branches {
        steps.push(Step {
            parent,
            far: branch.far,
            label: branch.label,
        });
        let number = steps.len();
        list_below(&branch.below, number, steps);
    }
}

/// How many steps there are.
pub fn size(branches: &[Branch]) -> usize {
    branches.iter().map(|b| 1 + size(&b.below)).sum()
}

/// Everything strictly below, in preorder; true beside those that are direct children.
pub fn strictly_below(branches: &[Branch]) -> Vec<(&Branch, bool)> {
    let mut all = Vec::new();
    for branch in branches {
        all.push((branch, true));
        for (lower, _) in strictly_below(&branch.below) {
            all.push((lower, false));
        }
    }
    all
}

/// A pattern as bytes: a step count, and parent, axis, label of each step.
pub fn written(pattern: &[Branch]) -> Vec<u8> {
    let steps = listed(pattern);
    let mut bytes = vec![steps.len() as u8];
    for step in steps {
        bytes.extend([step.parent as u8, step.far as u8, step.label]);
    }
    bytes
}

/// A table as bytes: an entry count, and members and pattern of each entry.
pub fn written_table(entries: &[Entry]) -> Vec<u8> {
    let mut bytes = vec![entries.len() as u8];
    for entry in entries {
        bytes.extend(entry.members.to_le_bytes());
        bytes.extend(written(&entry.pattern));
    }
    bytes
}

#[cfg(test)]
mod tests {
    use super::*;

    #[test]
    fn listing_and_planting_are_inverse() {
        let step = |parent, far, label| Step { parent, far, label };
        let steps = vec![
            step(0, false, 1),
            step(1, false, 2),
            step(1, true, 0),
            step(3, false, 3),
            step(0, true, 1),
        ];
        let pattern = planted(&steps);
        assert_eq!(listed(&pattern), steps);
        assert_eq!(size(&pattern), 5);
        assert_eq!(written(&pattern)[..4], [5, 0, 0, 1]);
    }
}
