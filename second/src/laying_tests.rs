//! Tests of laying on every pattern of at most three steps, labelled any or with the one label there is.

use crate::covering::covers;
use crate::maps::{covers_checked, satisfies_checked};
use crate::merging::merge;
use crate::trees::{planted, Document, Node, Pattern, Step};

const MOST_STEPS: usize = 3;
const MOST_NODES: usize = 4;

fn small_patterns() -> Vec<Pattern> {
    let mut lists: Vec<Vec<Step>> = vec![Vec::new()];
    let mut done = 0;
    while done < lists.len() {
        let steps = lists[done].clone();
        done += 1;
        if steps.len() < MOST_STEPS {
            lists.extend(longer_by_one(&steps));
        }
    }
    lists.iter().map(|steps| planted(steps)).collect()
}

/// These steps and one more, in every way; at most one near step has parent 0.
fn longer_by_one(steps: &[Step]) -> Vec<Vec<Step>> {
    let mut longer = Vec::new();
    let mut above = Some(steps.len());
    while let Some(parent) = above {
        for (far, label) in [(false, 0), (false, 1), (true, 0), (true, 1)] {
            let second_near = |step: &Step| parent == 0 && step.parent == 0 && !step.far && !far;
            if !steps.iter().any(second_near) {
                let step = Step { parent, far, label };
                longer.push([steps, &[step]].concat());
            }
        }
        above = parent.checked_sub(1).map(|place| steps[place].parent);
    }
    longer
}

/// Every document of at most four nodes, with the label of the patterns and another.
fn small_documents() -> Vec<Document> {
    let mut lists: Vec<Vec<Node>> = vec![Vec::new()];
    let mut done = 0;
    while done < lists.len() {
        let nodes = lists[done].clone();
        done += 1;
        let parents = nodes.len().min(1)..=nodes.len();
        for parent in parents.filter(|_| nodes.len() < MOST_NODES) {
            for label in [1, 2] {
                lists.push([&nodes[..], &[Node { parent, label }]].concat());
            }
        }
    }
    lists.remove(0);
    let labels = Vec::new();
    let document = |nodes| Document {
        labels: labels.clone(),
        nodes,
    };
    lists.into_iter().map(document).collect()
}

/// For every pattern, which ones it covers, also by all maps.
fn coverings(patterns: &[Pattern]) -> Vec<Vec<usize>> {
    let covered_by = |a: &Pattern| {
        let all = 0..patterns.len();
        all.filter(|&b| covers_checked(a, &patterns[b])).collect()
    };
    patterns.iter().map(covered_by).collect()
}

#[test]
fn covers_of_covers_are_covers() {
    let patterns = small_patterns();
    let covered = coverings(&patterns);
    for (a, by_a) in covered.iter().enumerate() {
        assert!(by_a.contains(&a));
        for &b in by_a {
            let all = covered[b].iter().all(|c| by_a.binary_search(c).is_ok());
            assert!(all, "{:?} and {:?}", patterns[a], patterns[b]);
        }
    }
}

#[test]
fn a_covering_pattern_loses_no_document() {
    let patterns = small_patterns();
    let covered = coverings(&patterns);
    for document in small_documents() {
        let satisfied = |pattern: &Pattern| satisfies_checked(&document, pattern);
        let satisfied: Vec<bool> = patterns.iter().map(satisfied).collect();
        for (a, by_a) in covered.iter().enumerate() {
            let lost = |&b: &usize| satisfied[b] && !satisfied[a];
            assert!(!by_a.iter().any(lost), "{document:?}, {:?}", patterns[a]);
        }
    }
}

#[test]
fn a_merge_covers_both() {
    let patterns = small_patterns();
    for p in &patterns {
        for q in &patterns {
            let merged = merge(p, q).pattern;
            assert!(covers(&merged, p) && covers(&merged, q), "{p:?}, {q:?}");
        }
    }
}
