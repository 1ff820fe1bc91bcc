//! When a document satisfies a pattern: by plain recursion over the nodes.

use crate::trees::{Branch, Document};

/// Place 0 is the top above the document's root node.
const TOP: usize = 0;

pub fn satisfies(document: &Document, pattern: &[Branch]) -> bool {
    let children = document.children();
    let all_hold = |step| holds_below(document, &children, TOP, step);
    pattern.iter().all(all_hold)
}

/// A near step asks the children, a far one everything strictly below.
fn holds_below(document: &Document, children: &[Vec<usize>], place: usize, step: &Branch) -> bool {
    children[place].iter().any(|&node| {
        fits(document, children, node, step)
            || step.far && holds_below(document, children, node, step)
    })
}

fn fits(document: &Document, children: &[Vec<usize>], node: usize, step: &Branch) -> bool {
    let same = step.label == 0 || step.label == document.nodes[node - 1].label;
    let holds = |lower| holds_below(document, children, node, lower);
    same && step.below.iter().all(holds)
}
