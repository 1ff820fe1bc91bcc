//! The same questions once more, by trying every map of steps: the definition word for word.
//! It serves as a check inside this program, where there are few maps.

use crate::covering::covers;
use crate::satisfying::satisfies;
use crate::trees::{listed, Branch, Document, Step};

const MOST_MAPS: usize = 20_000;

/// `covers`, checked against all maps where there are few of them.
pub fn covers_checked(a: &[Branch], b: &[Branch]) -> bool {
    let answer = covers(a, b);
    let (from, to) = (listed(a), listed(b));
    if are_few(from.len(), to.len()) {
        let by_maps = some_map(from.len(), to.len(), |map| is_laying(&from, &to, map));
        assert_eq!(answer, by_maps, "covering: {a:?} onto {b:?}");
    }
    answer
}

/// `satisfies`, checked against all maps where there are few of them.
pub fn satisfies_checked(document: &Document, pattern: &[Branch]) -> bool {
    let answer = satisfies(document, pattern);
    let steps = listed(pattern);
    if are_few(steps.len(), document.nodes.len()) {
        let matching = |map: &[usize]| is_matching(&steps, document, map);
        let by_maps = some_map(steps.len(), document.nodes.len(), matching);
        assert_eq!(answer, by_maps, "satisfying: {document:?}, {pattern:?}");
    }
    answer
}

fn are_few(from: usize, to: usize) -> bool {
    let maps = to.checked_pow(from as u32);
    maps.is_some_and(|maps| maps <= MOST_MAPS)
}

/// Tries every map from 1..=from to 1..=to; place 0 of a map stands for the root, laid on 0.
fn some_map(from: usize, to: usize, wanted: impl Fn(&[usize]) -> bool) -> bool {
    if to == 0 && from > 0 {
        return false;
    }
    let mut map = vec![1; from + 1];
    map[0] = 0;
    loop {
        if wanted(&map) {
            return true;
        }
        // Count on like an odometer; after the last map there is none left.
        let Some(i) = (1..=from).find(|&i| map[i] < to) else {
            return false;
        };
        map[1..i].fill(1);
        map[i] += 1;
    }
}

fn is_laying(from: &[Step], to: &[Step], map: &[usize]) -> bool {
    let parent_of = |place: usize| to[place - 1].parent;
    // A step is a leaf if no step is its child.
    let is_leaf = |number: usize| from.iter().all(|step| step.parent != number);
    from.iter().enumerate().all(|(i, step)| {
        let place = map[i + 1];
        let below = map[step.parent];
        let same = step.label == 0 || step.label == to[place - 1].label;
        let fits = if step.far {
            is_strictly_below(place, below, parent_of)
        } else {
            let starred_leaf = step.label == 0 && is_leaf(i + 1);
            parent_of(place) == below && (starred_leaf || !to[place - 1].far)
        };
        same && fits
    })
}

fn is_matching(steps: &[Step], document: &Document, map: &[usize]) -> bool {
    let parent_of = |node: usize| document.nodes[node - 1].parent;
    steps.iter().enumerate().all(|(i, step)| {
        let node = map[i + 1];
        let below = map[step.parent];
        let same = step.label == 0 || step.label == document.nodes[node - 1].label;
        let fits = if step.far {
            is_strictly_below(node, below, parent_of)
        } else {
            parent_of(node) == below
        };
        same && fits
    })
}

/// Climbs from the lower place to the root, looking for the upper one.
fn is_strictly_below(lower: usize, upper: usize, parent_of: impl Fn(usize) -> usize) -> bool {
    let mut place = lower;
    while place != 0 {
        place = parent_of(place);
        if place == upper {
            return true;
        }
    }
    false
}
