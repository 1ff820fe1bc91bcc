//! Which answers hang on a starred leaf: they would be others if near steps lay on near children alone.

use crate::building::{settled, settled_by};
use crate::covering::Laying;
use crate::merging::{merge_by, Merge};
use crate::routing::has_member;
use crate::trees::{Branch, Entry, Sheet};

const OTHERWISE: Laying = Laying::NearOnNearAlone;

/// Given that A covers B: would it not?
pub fn covering_hangs(a: &[Branch], b: &[Branch]) -> bool {
    !OTHERWISE.covers(a, b)
}

/// Given the merge of p with q: would it be another one, or the mark another?
pub fn merge_hangs(p: &[Branch], q: &[Branch], merged: &Merge) -> bool {
    let other = merge_by(OTHERWISE, p, q);
    other.pattern != merged.pattern || other.clipped.anywhere() != merged.clipped.anywhere()
}

/// Would other entries be left after the first settle?
pub fn settling_hangs(sheet: &Sheet) -> bool {
    settled(sheet) != settled_by(OTHERWISE, sheet)
}

/// Given a fair table: would some entry not cover one of its members?
pub fn fairness_hangs(sheet: &Sheet, entries: &[Entry]) -> bool {
    let members = |entry| (0..sheet.patterns.len()).filter(move |&i| has_member(entry, i));
    entries
        .iter()
        .any(|entry| members(entry).any(|i| covering_hangs(&entry.pattern, &sheet.patterns[i])))
}

#[cfg(test)]
mod tests {
    use super::*;
    use crate::building::one_for_each;
    use crate::examples::{ABC, ROSE_LABELS, ROSE_PATTERNS};
    use crate::merging::merge;
    use crate::notation::pattern;

    #[test]
    fn some_coverings_hang_on_a_starred_leaf() {
        let hangs = |a, b| covering_hangs(&pattern(a, &ABC), &pattern(b, &ABC));
        assert!(hangs("/*", "//a") && hangs("/a/*", "/a//b/c"));
        assert!(!hangs("/*", "/a") && !hangs("//*", "//a") && !hangs("/a/*", "/a[//b][/c]"));
    }

    #[test]
    fn some_merges_hang_on_a_starred_leaf() {
        let hangs = |a, b, labels: &[&str]| {
            let (p, q) = (pattern(a, labels), pattern(b, labels));
            merge_hangs(&p, &q, &merge(&p, &q))
        };
        let [s0, s1, s2] = ROSE_PATTERNS;
        assert!(hangs(s0, s1, &ROSE_LABELS) && !hangs(s1, s2, &ROSE_LABELS));
        assert!(hangs("/*", "//a", &ABC) && hangs("/*", "//*", &ABC));
        assert!(!hangs("//*", "/*", &ABC) && !hangs("/a", "//b", &ABC));
    }

    #[test]
    fn some_tables_hang_on_a_starred_leaf() {
        let sheet = |texts: [&str; 2]| Sheet {
            labels: Vec::new(),
            patterns: texts.map(|text| pattern(text, &ABC)).to_vec(),
        };
        let (hanging, other) = (sheet(["//a", "/*"]), sheet(["/a", "/*"]));
        assert!(settling_hangs(&hanging) && !settling_hangs(&other));
        assert!(fairness_hangs(&hanging, &settled(&hanging)));
        assert!(!fairness_hangs(&hanging, &one_for_each(&hanging)));
        assert!(!fairness_hangs(&other, &settled(&other)));
    }
}
