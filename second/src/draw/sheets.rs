//! Sheets of several sizes.

use super::effort::{of_plain_route, MOST_IN_MAKING};
use super::label_names::new_labels;
use super::patterns::{narrower, pattern, starred, wider, Style};
use crate::random::Random;
use crate::satisfying::satisfies;
use crate::trees::{planted, Document, Sheet, Step};

#[derive(Clone, Copy, PartialEq, Eq, Debug)]
pub enum Size {
    /// Next to nothing.
    Tiny,
    Small,
    /// Some dozen patterns of a middling size.
    Middle,
    /// Few patterns that don't cover each other and whose merges grow.
    Tangled,
    /// Few patterns, with up to 16 steps.
    Tall,
    /// 62 to 64 patterns.
    Many,
    /// 250 to 255 labels.
    Wide,
    /// The largest sheet that there is.
    Full,
}

/// Sizes that make the letter's questions worth asking: merges want tall patterns,
/// tables want many of them.
pub fn size_for(random: &mut Random, letter: u8) -> Size {
    let weights = match letter {
        b'C' | b'G' => [6, 25, 5, 15, 37, 3, 8, 1],
        b'B' => [6, 20, 30, 15, 8, 15, 5, 1],
        b'T' | b'P' | b'R' | b'W' => [8, 30, 20, 5, 12, 14, 9, 2],
        // For lines: long labels, tall patterns.
        b'N' => [10, 50, 5, 0, 5, 2, 10, 12],
        b'V' | b'U' => [8, 35, 10, 5, 22, 4, 6, 10],
        _ => [10, 45, 10, 5, 12, 6, 10, 2],
    };
    let sizes = [
        Size::Tiny,
        Size::Small,
        Size::Middle,
        Size::Tangled,
        Size::Tall,
        Size::Many,
        Size::Wide,
        Size::Full,
    ];
    let mut left = random.below(weights.iter().sum());
    for (size, weight) in sizes.into_iter().zip(weights) {
        if left < weight {
            return size;
        }
        left -= weight;
    }
    unreachable!("the weights are used up")
}

pub fn sheet(random: &mut Random, size: Size) -> Sheet {
    let (labels, patterns) = counts(random, size);
    let labels = match size {
        Size::Full => longest_labels(),
        _ => new_labels(random, labels, &[]),
    };
    let related_ones = related_ones(random, size);
    let style = style(random, size, labels.len());
    let mut lists: Vec<Vec<Step>> = Vec::new();
    for _ in 0..patterns {
        let related = !lists.is_empty() && random.one_in(related_ones);
        let steps = if related {
            let earlier = random.pick(&lists);
            relative(random, &earlier, labels.len())
        } else {
            let count = step_count(random, size);
            pattern(random, count, &style)
        };
        lists.push(steps);
    }
    // No steps at all only now and then, for such a pattern covers every other.
    if !lists.is_empty() && random.one_in(15) {
        let place = random.below(lists.len());
        lists[place].clear();
    }
    let patterns = lists.iter().map(|steps| planted(steps)).collect();
    Sheet { labels, patterns }
}

/// How many labels and how many patterns.
fn counts(random: &mut Random, size: Size) -> (usize, usize) {
    match size {
        Size::Tiny => (random.between(0, 1), random.between(0, 2)),
        Size::Small => (random.between(1, 4), random.between(1, 6)),
        Size::Middle => (random.between(1, 6), random.between(7, 20)),
        Size::Tangled => (random.between(1, 3), random.between(2, 4)),
        Size::Tall => (random.pick(&[0, 1, 2, 3, 3, 4]), random.between(2, 4)),
        Size::Many => (random.between(2, 12), random.pick(&[62, 63, 64, 64])),
        Size::Wide => (random.between(250, 255), random.between(1, 5)),
        Size::Full => (255, 64),
    }
}

/// One pattern in so many is made from an earlier one. Among many patterns some cover
/// others anyway, and too many such would leave no entries to merge.
fn related_ones(random: &mut Random, size: Size) -> usize {
    match size {
        Size::Many | Size::Full => random.pick(&[5, 20, 100]),
        Size::Tangled => 100,
        Size::Tall => random.pick(&[2, 4, 100, 100]),
        _ => random.pick(&[2, 3, 6, 100]),
    }
}

fn style(random: &mut Random, size: Size, label_count: usize) -> Style {
    // Merges are left with most to clip where nearly all steps are far and labelled.
    let (far_ones, any_ones) = match size {
        Size::Tangled => (random.pick(&[1, 1, 2, 4, 100]), random.pick(&[8, 100])),
        _ => (
            random.pick(&[1, 2, 2, 3, 5, 100]),
            random.pick(&[3, 6, 20, 100]),
        ),
    };
    Style {
        label_count,
        usual: random.pick(&[2, 3, 3, 8]),
        far_ones,
        any_ones,
        chains: random.one_in(5),
    }
}

/// A pattern near to an earlier one: often one of the two covers the other.
fn relative(random: &mut Random, earlier: &[Step], label_count: usize) -> Vec<Step> {
    match random.below(10) {
        0 => earlier.to_vec(),
        1 | 2 => wider(random, earlier),
        3 | 4 => starred(random, earlier),
        5 => {
            // Often neither covers the other, but a branch of one lies at a branch of the other.
            let leaves = starred(random, earlier);
            narrower(random, &leaves, label_count)
        }
        _ => narrower(random, earlier, label_count),
    }
}

fn step_count(random: &mut Random, size: Size) -> usize {
    match size {
        Size::Tiny => random.between(0, 2),
        Size::Small | Size::Wide => random.between(1, 6),
        Size::Middle => random.between(1, 8),
        Size::Tangled => random.between(4, 10),
        Size::Tall => random.pick(&[7, 8, 10, 12, 14, 15, 16, 16]),
        Size::Many => random.between(3, 6),
        Size::Full => 16,
    }
}

/// Of the patterns that the document satisfies, one is left, often the last on the sheet;
/// the others become copies of ones that it doesn't.
pub fn leave_one(random: &mut Random, sheet: &mut Sheet, document: &Document) {
    if of_plain_route(sheet, document) > MOST_IN_MAKING {
        return;
    }
    let all = 0..sheet.patterns.len();
    let (takers, others): (Vec<usize>, Vec<usize>) =
        all.partition(|&i| satisfies(document, &sheet.patterns[i]));
    if takers.is_empty() || others.is_empty() {
        return;
    }
    let left = random.pick(&takers);
    for taker in takers {
        if taker != left {
            sheet.patterns[taker] = sheet.patterns[random.pick(&others)].clone();
        }
    }
    let last = sheet.patterns.len() - 1;
    let place = random.pick(&[0, last, last, left]);
    sheet.patterns.swap(left, place);
}

/// 255 labels of 60 bytes.
fn longest_labels() -> Vec<Vec<u8>> {
    let label = |last: u8| {
        let mut bytes = vec![b'x'; 60];
        bytes[59] = last;
        bytes
    };
    (0..255).map(label).collect()
}
