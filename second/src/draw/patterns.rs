//! Patterns, drawn as listed steps that keep the rules of document 01.

use crate::random::Random;
use crate::trees::Step;

/// What the patterns of a sheet have in common.
pub struct Style {
    pub label_count: usize,
    /// Most steps have one of so many first labels, so that patterns meet.
    pub usual: usize,
    /// One step in so many is far, and one in so many is labelled any.
    pub far_ones: usize,
    pub any_ones: usize,
    /// All patterns are chains: their merges go deepest.
    pub chains: bool,
}

/// A pattern of so many steps: a chain, a bush, or any shape.
pub fn pattern(random: &mut Random, count: usize, style: &Style) -> Vec<Step> {
    let shape = match style.chains {
        true => 0,
        false => random.below(4),
    };
    let mut steps = Vec::new();
    for number in 1..=count {
        let allowed = allowed_parents(&steps);
        let parent = match shape {
            0 => number - 1,
            // A bush: mostly below the root step that is open.
            1 if random.below(3) > 0 => allowed[allowed.len().saturating_sub(2)],
            _ => random.pick(&allowed),
        };
        let far = random.one_in(style.far_ones);
        let label = match random.one_in(style.any_ones) {
            true => 0,
            false => usual_label(random, style.label_count, style.usual),
        };
        add_step(&mut steps, Step { parent, far, label });
    }
    steps
}

/// Mostly one of the usual labels; now and then any one, or the last.
pub fn usual_label(random: &mut Random, label_count: usize, usual: usize) -> u8 {
    if label_count == 0 {
        return 0;
    }
    let label = match random.below(12) {
        0 => random.between(1, label_count),
        1 => label_count,
        _ => random.between(1, label_count.min(usual)),
    };
    label as u8
}

/// The step just before, and those above it up to the root, lowest first.
fn allowed_parents(steps: &[Step]) -> Vec<usize> {
    let mut place = steps.len();
    let mut allowed = vec![place];
    while place != 0 {
        place = steps[place - 1].parent;
        allowed.push(place);
    }
    allowed
}

/// Adds a step; a second near one at the root becomes far.
fn add_step(steps: &mut Vec<Step>, mut step: Step) {
    if step.parent == 0 && has_near_root(steps) {
        step.far = true;
    }
    steps.push(step);
}

fn has_near_root(steps: &[Step]) -> bool {
    steps.iter().any(|step| step.parent == 0 && !step.far)
}

/// Has the step at this place no child steps?
fn is_leaf(steps: &[Step], place: usize) -> bool {
    steps.iter().all(|step| step.parent != place + 1)
}

/// A pattern that the given one often is covered by: steps made far or any, leaves starred, or steps cut off.
pub fn wider(random: &mut Random, steps: &[Step]) -> Vec<Step> {
    let mut wide = steps.to_vec();
    for _ in 0..random.between(1, 3) {
        if wide.is_empty() {
            break;
        }
        let place = random.below(wide.len());
        match random.below(4) {
            0 => wide[place].far = true,
            1 if wide.len() > 1 || random.one_in(10) => drop(wide.pop()),
            2 if is_leaf(&wide, place) => star(&mut wide, place),
            _ => wide[place].label = 0,
        }
    }
    wide
}

/// A pattern that covers the given one by its starred leaves: some leaves, or all, are made such.
pub fn starred(random: &mut Random, steps: &[Step]) -> Vec<Step> {
    let mut starred = steps.to_vec();
    let ones = random.between(1, 3);
    for place in 0..steps.len() {
        if is_leaf(steps, place) && random.one_in(ones) {
            star(&mut starred, place);
        }
    }
    starred
}

/// Labels the leaf any, and makes it near if the root then has no second near step.
fn star(steps: &mut [Step], leaf: usize) {
    steps[leaf].label = 0;
    if steps[leaf].parent != 0 || !has_near_root(steps) {
        steps[leaf].far = false;
    }
}

/// A pattern that often is covered by the given one: steps added, made near or labelled, starred leaves made far.
pub fn narrower(random: &mut Random, steps: &[Step], label_count: usize) -> Vec<Step> {
    let mut narrow = steps.to_vec();
    for _ in 0..random.between(1, 3) {
        let label = usual_label(random, label_count, 3);
        let far = random.one_in(2);
        if narrow.len() < 16 && (narrow.is_empty() || random.one_in(2)) {
            let parent = random.pick(&allowed_parents(&narrow));
            add_step(&mut narrow, Step { parent, far, label });
            continue;
        }
        let place = random.below(narrow.len());
        if narrow[place].label == 0 {
            narrow[place].label = label;
            narrow[place].far |= is_leaf(&narrow, place) && random.one_in(2);
        } else if narrow[place].parent != 0 || !has_near_root(&narrow) {
            narrow[place].far = false;
        }
    }
    narrow
}
