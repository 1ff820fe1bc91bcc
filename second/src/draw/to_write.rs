//! Patterns that are to be written as lines.

use super::line_names::unwritable;
use super::patterns::{pattern, Style};
use crate::random::Random;
use crate::trees::{listed, planted, Pattern, Sheet, Step};

/// One of the sheet's, one drawn for itself, or one whose line is as long as can be.
pub fn pattern_to_write(random: &mut Random, sheet: &Sheet) -> Pattern {
    match random.below(5) {
        0 if !sheet.patterns.is_empty() => random.pick(&sheet.patterns),
        1 => longest_to_write(random, sheet),
        _ => {
            let style = any_style(random, sheet);
            let any = random.between(0, 16);
            let count = random.pick(&[0, 1, 2, 3, any, any, any, 15, 16]);
            planted(&pattern(random, count, &style))
        }
    }
}

fn any_style(random: &mut Random, sheet: &Sheet) -> Style {
    Style {
        label_count: sheet.labels.len(),
        usual: random.pick(&[2, 3, 8]),
        far_ones: random.pick(&[1, 2, 3, 100]),
        any_ones: random.pick(&[3, 6, 100]),
        chains: random.one_in(5),
    }
}

/// Sixteen far steps, each in brackets: at the root, or the later ones below an earlier one.
pub fn longest_to_write(random: &mut Random, sheet: &Sheet) -> Pattern {
    let roots = random.pick(&[16, 2, 3, 8, 14]);
    let mut steps = Vec::new();
    for number in 1..=16 {
        let parent = if number > roots { roots } else { 0 };
        // Few have an unlabelled step, for that makes the line shorter.
        let label = match sheet.labels.len() {
            0 => 0,
            _ if random.one_in(200) => 0,
            count => random.between(1, count),
        };
        let far = true;
        let label = label as u8;
        steps.push(Step { parent, far, label });
    }
    planted(&steps)
}

/// Makes one of the labels that the pattern uses not writable; false if it uses none.
pub fn make_unwritable(random: &mut Random, sheet: &mut Sheet, pattern: &Pattern) -> bool {
    let labelled = listed(pattern).into_iter().filter(|step| step.label > 0);
    let used: Vec<Step> = labelled.collect();
    if used.is_empty() {
        return false;
    }
    let last = used[used.len() - 1];
    let any = random.pick(&used);
    let step = random.pick(&[used[0], last, any]);
    let label = unwritable(random);
    if sheet.labels.contains(&label) {
        return false;
    }
    sheet.labels[step.label as usize - 1] = label;
    true
}
