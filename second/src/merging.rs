//! The merge of two patterns, by the words of document 01 and with no notes kept:
//! the body of a pair is worked out again each time that the pair is reached.

use crate::covering::Laying;
use crate::trees::{size, strictly_below, Branch, Pattern};

const MOST_STEPS: usize = 16;

/// By which of the three rules a merge came about.
#[derive(Clone, Copy, PartialEq, Eq, Debug)]
pub enum Rule {
    FirstCovers,
    SecondCovers,
    Built,
}

pub struct Merge {
    pub pattern: Pattern,
    pub clipped: Clipped,
    pub rule: Rule,
}

/// Where candidates were left out. The merge is clipped if there was any.
#[derive(Clone, Copy, Default)]
pub struct Clipped {
    pub at_roots: bool,
    pub below: bool,
}

impl Clipped {
    pub fn anywhere(self) -> bool {
        self.at_roots || self.below
    }
}

pub fn merge(p: &[Branch], q: &[Branch]) -> Merge {
    merge_by(Laying::InForce, p, q)
}

/// The merge by either rule.
pub fn merge_by(laying: Laying, p: &[Branch], q: &[Branch]) -> Merge {
    let clipped = Clipped::default();
    let mut work = Work { laying, clipped };
    let (pattern, rule) = if laying.covers(p, q) {
        (p.to_vec(), Rule::FirstCovers)
    } else if laying.covers(q, p) {
        (q.to_vec(), Rule::SecondCovers)
    } else {
        (work.built_at(p, q, 0), Rule::Built)
    };
    Merge {
        pattern,
        clipped: work.clipped,
        rule,
    }
}

/// A merge at work: how it lays, and where it has left candidates out.
struct Work {
    laying: Laying,
    clipped: Clipped,
}

impl Work {
    /// What is built at a pair, given what stands below each of the two.
    /// `own` is the pair's own step: 1, or 0 at the roots.
    fn built_at(&mut self, v: &[Branch], w: &[Branch], own: usize) -> Vec<Branch> {
        let mut kept = Vec::new();
        for (lower_v, is_child_of_v) in strictly_below(v) {
            for (lower_w, is_child_of_w) in strictly_below(w) {
                let children = is_child_of_v && is_child_of_w;
                let near = children && !lower_v.far && !lower_w.far;
                let mut candidate = self.body(lower_v, lower_w);
                candidate.far = !near;
                self.consider(candidate, &mut kept, own);
            }
        }
        kept
    }

    /// The body of a pair: label and children. The axis is set by who asked.
    fn body(&mut self, v: &Branch, w: &Branch) -> Branch {
        if self.laying.fits(v, w) {
            return v.clone();
        }
        if self.laying.fits(w, v) {
            return w.clone();
        }
        Branch {
            far: true,
            label: if v.label == w.label { v.label } else { 0 },
            below: self.built_at(&v.below, &w.below, 1),
        }
    }

    /// Skips the candidate, puts it last in place of those that it makes needless, or leaves it out.
    fn consider(&mut self, candidate: Branch, kept: &mut Vec<Branch>, own: usize) {
        if kept.iter().any(|one| self.can_be_laid_on(&candidate, one)) {
            return;
        }
        let mut after: Vec<Branch> = kept.clone();
        after.retain(|one| !self.can_be_laid_on(one, &candidate));
        after.push(candidate);
        if own + size(&after) > MOST_STEPS {
            // Left out, and then nothing is dropped either.
            self.clipped.at_roots |= own == 0;
            self.clipped.below |= own == 1;
            return;
        }
        *kept = after;
    }

    /// Below the same parent, can `upper` be laid on `lower` or (if far) inside it?
    fn can_be_laid_on(&self, upper: &Branch, lower: &Branch) -> bool {
        self.laying.finds_place(upper, std::slice::from_ref(lower))
    }
}
