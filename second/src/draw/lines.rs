//! Sound lines, drawn from the notation with all its forms.

use super::line_lengths::{about_longest, of_known_labels};
use super::line_names::{readable, unknown};
use crate::random::Random;
use crate::trees::Sheet;

/// A branch of a line, before it is written.
pub struct Twig {
    pub far: bool,
    pub name: Vec<u8>,
    pub below: Vec<Twig>,
}

#[derive(Clone, Copy, PartialEq, Eq)]
pub enum Shape {
    Chain,
    /// All at the root.
    Row,
    /// Mostly below the one before.
    Tall,
    Any,
}

/// What the branches of a line have in common.
pub struct Manner {
    pub names: Vec<Vec<u8>>,
    pub shape: Shape,
    /// One branch in so many is far, and one in so many is any.
    pub far_ones: usize,
    pub any_ones: usize,
    /// One last branch in so many stands in brackets, and one in so many in brackets is short.
    pub bracket_ones: usize,
    pub short_ones: usize,
    /// As lines are written: brackets where there are several, and nothing short.
    pub plain: bool,
}

pub fn any_manner(random: &mut Random, sheet: &Sheet) -> Manner {
    Manner {
        names: readable(sheet),
        shape: random.pick(&[Shape::Chain, Shape::Row, Shape::Tall, Shape::Any]),
        far_ones: random.pick(&[1, 2, 2, 3, 100]),
        any_ones: random.pick(&[3, 6, 100]),
        bracket_ones: random.pick(&[1, 2, 4, 100]),
        short_ones: random.pick(&[1, 2, 2, 4, 100]),
        plain: random.one_in(4),
    }
}

/// A sound line. Most have known labels, at most sixteen steps and one near root step.
pub fn sound_line(random: &mut Random, sheet: &Sheet) -> Vec<u8> {
    match random.below(40) {
        0 | 1 => return b".".to_vec(),
        2 => return deep_line(random, sheet),
        _ => {}
    }
    if random.one_in(2) {
        let length = about_longest(random);
        if let Some(line) = of_known_labels(random, sheet, length) {
            return line;
        }
    }
    let manner = any_manner(random, sheet);
    let count = any_count(random);
    let mut branches = twigs(random, count, &manner);
    if random.one_in(25) {
        *any_twig(random, &mut branches) = unknown(random, sheet);
    }
    if !random.one_in(12) {
        leave_one_near(&mut branches);
    }
    written(random, &branches, &manner)
}

/// Brackets inside brackets, from fewer than sixteen to hundreds.
pub fn deep_line(random: &mut Random, sheet: &Sheet) -> Vec<u8> {
    let mut manner = any_manner(random, sheet);
    manner.names.retain(|label| label.len() <= 4);
    manner.shape = random.pick(&[Shape::Chain, Shape::Chain, Shape::Tall]);
    manner.bracket_ones = random.pick(&[1, 1, 1, 20]);
    manner.plain = false;
    let count = random.pick(&[15, 16, 17, 18, 19, 33, 64, 100, 255, 256, 257, 330, 512]);
    // Hundreds fit in a line only if nearly all are as short as can be.
    if count > 100 {
        manner.names.retain(|label| label.len() == 1);
        manner.far_ones = 100;
        manner.short_ones = 1;
    }
    let mut branches = twigs(random, count, &manner);
    if random.one_in(4) {
        *any_twig(random, &mut branches) = unknown(random, sheet);
    }
    written(random, &branches, &manner)
}

fn any_count(random: &mut Random) -> usize {
    match random.below(20) {
        0..=9 => random.between(1, 6),
        10..=13 => random.between(7, 14),
        14..=17 => random.pick(&[15, 16, 16, 16, 17, 18]),
        18 => random.between(19, 40),
        _ => random.pick(&[60, 120, 250, 330]),
    }
}

/// So many branches, in the manner's shape.
pub fn twigs(random: &mut Random, count: usize, manner: &Manner) -> Vec<Twig> {
    let mut parents = Vec::new();
    for number in 1..=count {
        let parent = match manner.shape {
            Shape::Chain => number - 1,
            Shape::Row => 0,
            Shape::Tall if random.below(4) > 0 => number - 1,
            Shape::Tall | Shape::Any => random.between(0, number - 1),
        };
        parents.push(parent);
    }
    twigs_below(random, 0, &parents, manner)
}

fn twigs_below(random: &mut Random, above: usize, parents: &[usize], manner: &Manner) -> Vec<Twig> {
    let own = (1..=parents.len()).filter(|&number| parents[number - 1] == above);
    let numbers: Vec<usize> = own.collect();
    let mut twigs = Vec::new();
    for number in numbers {
        let any = manner.names.is_empty() || random.one_in(manner.any_ones);
        twigs.push(Twig {
            far: random.one_in(manner.far_ones),
            name: match any {
                true => b"*".to_vec(),
                false => random.pick(&manner.names),
            },
            below: twigs_below(random, number, parents, manner),
        });
    }
    twigs
}

/// All names, in the order of steps.
fn names(twigs: &mut [Twig]) -> Vec<&mut Vec<u8>> {
    let mut all = Vec::new();
    for twig in twigs {
        all.push(&mut twig.name);
        all.extend(names(&mut twig.below));
    }
    all
}

/// The name of some branch, often of one beside the sixteenth.
pub fn any_twig<'a>(random: &mut Random, twigs: &'a mut [Twig]) -> &'a mut Vec<u8> {
    let mut all = names(twigs);
    let last = all.len() - 1;
    let any = random.between(0, last);
    let place = random.pick(&[0, 14, 15, 16, 17, last, any, any]);
    all.swap_remove(place.min(last))
}

/// Of the near ones at the root only the first is left near.
pub fn leave_one_near(roots: &mut [Twig]) {
    let near = roots.iter_mut().filter(|twig| !twig.far);
    near.skip(1).for_each(|twig| twig.far = true);
}

pub fn written(random: &mut Random, twigs: &[Twig], manner: &Manner) -> Vec<u8> {
    let mut line = Vec::new();
    for (i, twig) in twigs.iter().enumerate() {
        let bare = match manner.plain {
            true => twigs.len() == 1,
            false => i + 1 == twigs.len() && !random.one_in(manner.bracket_ones),
        };
        if bare {
            line.extend(axis(twig));
            line.extend(rest(random, twig, manner));
            continue;
        }
        let short = !manner.plain && random.one_in(manner.short_ones);
        line.push(b'[');
        line.extend(match (short, twig.far) {
            (true, true) => b".//",
            (true, false) => &b""[..],
            (false, _) => axis(twig),
        });
        line.extend(rest(random, twig, manner));
        line.push(b']');
    }
    line
}

fn axis(twig: &Twig) -> &'static [u8] {
    match twig.far {
        true => b"//",
        false => b"/",
    }
}

fn rest(random: &mut Random, twig: &Twig, manner: &Manner) -> Vec<u8> {
    [&twig.name[..], &written(random, &twig.below, manner)].concat()
}
