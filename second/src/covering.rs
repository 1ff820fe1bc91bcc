//! When pattern A covers pattern B: every step of A finds a place on B, by plain recursion.

use crate::trees::Branch;

/// Where near steps may lie. Answers are by the rule in force alone. The other, without starred leaves, only tells
/// which answers hang on one.
#[derive(Clone, Copy, PartialEq, Eq, Debug)]
pub enum Laying {
    InForce,
    NearOnNearAlone,
}

pub fn covers(a: &[Branch], b: &[Branch]) -> bool {
    Laying::InForce.covers(a, b)
}

impl Laying {
    pub fn covers(self, a: &[Branch], b: &[Branch]) -> bool {
        a.iter().all(|step| self.finds_place(step, b))
    }

    /// Can the step be laid among these children of the place of its parent?
    /// A near step only on a child, as `near_may_lie` says; a far one on any child or inside it.
    pub fn finds_place(self, step: &Branch, children: &[Branch]) -> bool {
        if step.far {
            children
                .iter()
                .any(|child| self.fits(step, child) || self.finds_place(step, &child.below))
        } else {
            children
                .iter()
                .any(|child| self.near_may_lie(step, child) && self.fits(step, child))
        }
    }

    /// A near step lies on a near child, and a starred leaf on any child, near or far.
    fn near_may_lie(self, step: &Branch, child: &Branch) -> bool {
        !child.far || self == Laying::InForce && is_starred_leaf(step)
    }

    /// Label and children of the step fit at this place; the two axes don't matter.
    pub fn fits(self, step: &Branch, place: &Branch) -> bool {
        let same = step.label == 0 || step.label == place.label;
        same && self.covers(&step.below, &place.below)
    }
}

/// Labelled any, without child steps.
fn is_starred_leaf(step: &Branch) -> bool {
    step.label == 0 && step.below.is_empty()
}
