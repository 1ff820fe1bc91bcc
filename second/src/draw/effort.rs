//! How much work a question is for this program, which keeps no notes: so that questions
//! which would take it too long can be left aside. No answer depends on it.

use crate::building::{settled, steps_together};
use crate::covering::Laying;
use crate::question::Question;
use crate::reading;
use crate::trees::{size, strictly_below, Branch, Document, Entry, Pattern, Sheet};

/// Microseconds that may go into making a part of a question.
pub const MOST_IN_MAKING: f64 = 3_000.0;

/// Roughly the microseconds that a question takes at most, and 0 for those that are quick.
pub fn of(question: &Question) -> f64 {
    let Ok(sheet) = reading::sheet(&question.sheet) else {
        return 0.0;
    };
    match question.letter {
        b'M' | b'P' | b'R' | b'W' => of_matching(question, &sheet),
        b'G' => 0.25 * of_merge(question, &sheet),
        b'B' => of_build(&sheet, question.limit),
        _ => 0.0,
    }
}

/// Every subscription is asked, and every entry.
fn of_matching(question: &Question, sheet: &Sheet) -> f64 {
    let Ok(document) = reading::document(&question.document, sheet) else {
        return 0.0;
    };
    let mut effort = of_plain_route(sheet, &document);
    let entries: Vec<Entry> = reading::table(&question.table, sheet).unwrap_or_default();
    for entry in entries {
        effort += of_satisfying(&document, &entry.pattern);
    }
    effort
}

pub fn of_plain_route(sheet: &Sheet, document: &Document) -> f64 {
    let of_one = |pattern: &Pattern| of_satisfying(document, pattern);
    sheet.patterns.iter().map(of_one).sum()
}

/// Counted in nodes visited.
fn of_satisfying(document: &Document, pattern: &[Branch]) -> f64 {
    let children = document.children();
    let visits = |step| visits_below(document, &children, step)[0];
    0.01 * pattern.iter().map(visits).sum::<f64>()
}

/// For the top and every node: the visits it takes at most to see that the step fails below it.
fn visits_below(document: &Document, children: &[Vec<usize>], step: &Branch) -> Vec<f64> {
    let lower = |s| visits_below(document, children, s);
    let inner: Vec<Vec<f64>> = step.below.iter().map(lower).collect();
    let mut visits = vec![0.0; children.len()];
    // Children have higher numbers than their parents.
    for place in (0..children.len()).rev() {
        for &node in &children[place] {
            let same = step.label == 0 || step.label == document.nodes[node - 1].label;
            visits[place] += 1.0;
            if same {
                visits[place] += inner.iter().map(|v| v[node]).sum::<f64>();
            }
            if step.far {
                visits[place] += visits[node];
            }
        }
    }
    visits
}

/// Counted in bodies worked out.
fn of_merge(question: &Question, sheet: &Sheet) -> f64 {
    let pattern = |i: usize| {
        sheet
            .patterns
            .get(usize::try_from(question.numbers[i]).ok()?)
    };
    match (pattern(0), pattern(1)) {
        (Some(p), Some(q)) => {
            // It is worked out both ways, to see if it hangs on a starred leaf.
            let ways = [Laying::InForce, Laying::NearOnNearAlone];
            ways.iter().map(|&laying| pairs_reached(laying, p, q)).sum()
        }
        _ => 0.0,
    }
}

/// How often the merge of the two, by plain recursion, works out the body of a pair.
fn pairs_reached(laying: Laying, p: &[Branch], q: &[Branch]) -> f64 {
    let (all_v, all_w) = (strictly_below(p), strictly_below(q));
    let mut pairs = vec![vec![1.0; all_w.len()]; all_v.len()];
    for (i, (v, _)) in all_v.iter().enumerate().rev() {
        for (j, (w, _)) in all_w.iter().enumerate().rev() {
            if laying.fits(v, w) || laying.fits(w, v) {
                continue;
            }
            // In preorder, what stands below a step follows it at once.
            let below_v = i + 1..i + 1 + size(&v.below);
            let below_w = j + 1..j + 1 + size(&w.below);
            for lower in &pairs[below_v].to_vec() {
                pairs[i][j] += lower[below_w.clone()].iter().sum::<f64>();
            }
        }
    }
    pairs.iter().flatten().sum()
}

/// The merges of the first round, times as many rounds as there can be. Most builds take
/// far fewer rounds, and there are fewer entries in each.
pub fn of_build(sheet: &Sheet, limit: u16) -> f64 {
    if limit >= 64 * 16 {
        return 0.0;
    }
    let entries = settled(sheet);
    let rounds = steps_together(&entries).saturating_sub(limit as usize);
    if rounds == 0 {
        return 0.0;
    }
    let mut effort = 0.0;
    for (i, first) in entries.iter().enumerate() {
        for second in &entries[i + 1..] {
            effort += pairs_reached(Laying::InForce, &first.pattern, &second.pattern);
        }
    }
    0.03 * effort * rounds as f64
}
