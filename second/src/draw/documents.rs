//! Documents beside a sheet, many of them made so that a pattern matches or nearly does.

use super::label_names::new_labels;
use super::patterns::usual_label;
use crate::random::Random;
use crate::trees::{Branch, Document, Node, Sheet};

pub fn document(random: &mut Random, sheet: &Sheet) -> Document {
    let labels = own_labels(random, sheet);
    let choice = LabelChoice {
        of_sheet: sheet.labels.len(),
        of_document: labels.len(),
    };
    let mut nodes = nodes(random, sheet, &choice);
    if random.one_in(3) {
        nodes = reordered(random, &nodes);
    }
    Document { labels, nodes }
}

/// Mostly a few; now and then as many as there can be.
fn own_labels(random: &mut Random, sheet: &Sheet) -> Vec<Vec<u8>> {
    let taken = sheet.labels.len();
    let most = 255 - taken;
    // Every node needs a label, so there must be one.
    let least = if taken == 0 { 1 } else { 0 };
    let count = match random.below(12) {
        0 => most - random.between(0, most.min(2)),
        _ => random.between(0, 3).min(most),
    };
    new_labels(random, count.max(least), &sheet.labels)
}

struct LabelChoice {
    of_sheet: usize,
    of_document: usize,
}

impl LabelChoice {
    fn draw(&self, random: &mut Random) -> u8 {
        let last = self.of_sheet + self.of_document;
        match random.below(8) {
            0 => last as u8,
            1 => random.between(1, last) as u8,
            2 if self.of_document > 0 => (self.of_sheet + 1) as u8,
            _ => usual_label(random, self.of_sheet, 3).max(1),
        }
    }
}

fn nodes(random: &mut Random, sheet: &Sheet, choice: &LabelChoice) -> Vec<Node> {
    let count = match random.below(40) {
        0 => random.pick(&[1023, 1024, 1024]),
        1 | 2 => random.between(17, 80),
        3 => near_a_power_of_two(random),
        _ => random.between(2, 12),
    };
    match random.below(10) {
        0 => shaped(random, 1, choice, |_, _| 1),
        1 => shaped(random, count, choice, |_, number| number - 1),
        2 => shaped(random, count, choice, |_, _| 1),
        3 | 4 => shaped(random, count, choice, |random, number| {
            random.between(1, number - 1)
        }),
        _ if sheet.patterns.is_empty() => shaped(random, 1, choice, |_, _| 1),
        _ => for_patterns(random, sheet, choice),
    }
}

/// From 15 to 1,024: where an implementation's working memory might end.
fn near_a_power_of_two(random: &mut Random) -> usize {
    let power = 1 << random.between(4, 10);
    random.between(power - 1, 1024.min(power + 1))
}

/// So many nodes; the parent of each but the first is drawn from its number.
fn shaped(
    random: &mut Random,
    count: usize,
    choice: &LabelChoice,
    parent_of: impl Fn(&mut Random, usize) -> usize,
) -> Vec<Node> {
    let mut nodes = Vec::new();
    for number in 1..=count {
        let parent = match number {
            1 => 0,
            _ => parent_of(random, number),
        };
        let label = choice.draw(random);
        nodes.push(Node { parent, label });
    }
    nodes
}

/// Nodes on which a pattern or two can be laid; sometimes one label is then changed.
fn for_patterns(random: &mut Random, sheet: &Sheet, choice: &LabelChoice) -> Vec<Node> {
    let mut nodes = vec![Node {
        parent: 0,
        label: choice.draw(random),
    }];
    for _ in 0..random.between(1, 2) {
        let pattern = match random.one_in(4) {
            true => sheet.patterns[sheet.patterns.len() - 1].clone(),
            false => random.pick(&sheet.patterns),
        };
        for step in &pattern {
            grow_root_step(random, step, choice, &mut nodes);
        }
    }
    if random.one_in(3) {
        let place = random.below(nodes.len());
        nodes[place].label = choice.draw(random);
    }
    nodes
}

/// A near root step needs the root node; a far one takes it or grows below it.
fn grow_root_step(random: &mut Random, step: &Branch, choice: &LabelChoice, nodes: &mut Vec<Node>) {
    if step.far && random.below(4) > 0 {
        return grow(random, step, 1, choice, nodes);
    }
    if step.label != 0 {
        nodes[0].label = step.label;
    }
    for lower in &step.below {
        grow(random, lower, 1, choice, nodes);
    }
}

fn grow(
    random: &mut Random,
    step: &Branch,
    below: usize,
    choice: &LabelChoice,
    nodes: &mut Vec<Node>,
) {
    let mut parent = below;
    if step.far {
        for _ in 0..random.pick(&[0, 0, 1, 2]) {
            let label = choice.draw(random);
            nodes.push(Node { parent, label });
            parent = nodes.len();
        }
    }
    let label = match step.label {
        0 => choice.draw(random),
        label => label,
    };
    nodes.push(Node { parent, label });
    let own_number = nodes.len();
    for lower in &step.below {
        grow(random, lower, own_number, choice, nodes);
    }
}

/// The same tree, numbered in another order; parents still stand before children.
fn reordered(random: &mut Random, nodes: &[Node]) -> Vec<Node> {
    let mut new_numbers = vec![0; nodes.len() + 1];
    let mut ready = vec![1];
    let mut order = Vec::new();
    while !ready.is_empty() {
        let number = ready.swap_remove(random.below(ready.len()));
        let old = nodes[number - 1];
        order.push(Node {
            parent: new_numbers[old.parent],
            label: old.label,
        });
        new_numbers[number] = order.len();
        let children = (1..=nodes.len()).filter(|&child| nodes[child - 1].parent == number);
        ready.extend(children);
    }
    order
}
