//! The table built for a step limit.

use crate::covering::Laying;
use crate::merging::merge;
use crate::trees::{listed, planted, size, Entry, Sheet};

pub struct Built {
    pub entries: Vec<Entry>,
    pub rounds: usize,
    /// How many of the rounds were cuts, and how many of these had several entries to choose from.
    pub cuts: usize,
    pub cuts_among_several: usize,
}

pub fn build(sheet: &Sheet, limit: u16) -> Built {
    let mut built = Built {
        entries: settled(sheet),
        rounds: 0,
        cuts: 0,
        cuts_among_several: 0,
    };
    while steps_together(&built.entries) > limit as usize {
        built.rounds += 1;
        if !merge_best_pair(&mut built.entries) {
            built.cuts += 1;
            built.cuts_among_several += (built.entries.len() > 1) as usize;
            cut_largest(&mut built.entries);
        }
        settle(Laying::InForce, &mut built.entries);
    }
    built
}

pub fn one_for_each(sheet: &Sheet) -> Vec<Entry> {
    let entry = |(i, pattern): (usize, &Vec<_>)| Entry {
        members: 1 << i,
        pattern: pattern.clone(),
    };
    sheet.patterns.iter().enumerate().map(entry).collect()
}

/// The entries before the first round.
pub fn settled(sheet: &Sheet) -> Vec<Entry> {
    settled_by(Laying::InForce, sheet)
}

/// The same by either rule.
pub fn settled_by(laying: Laying, sheet: &Sheet) -> Vec<Entry> {
    let mut entries = one_for_each(sheet);
    settle(laying, &mut entries);
    entries
}

pub fn steps_together(entries: &[Entry]) -> usize {
    entries.iter().map(|entry| size(&entry.pattern)).sum()
}

fn settle(laying: Laying, entries: &mut Vec<Entry>) {
    while let Some((i, j)) = first_covering_pair(laying, entries) {
        entries[i].members |= entries[j].members;
        entries.remove(j);
    }
}

fn first_covering_pair(laying: Laying, entries: &[Entry]) -> Option<(usize, usize)> {
    for i in 0..entries.len() {
        for j in 0..entries.len() {
            if i != j && laying.covers(&entries[i].pattern, &entries[j].pattern) {
                return Some((i, j));
            }
        }
    }
    None
}

/// Merges the pair that saves most, the first on ties; false if no pair saves.
fn merge_best_pair(entries: &mut Vec<Entry>) -> bool {
    let mut best = None;
    let mut most_saved = 0;
    for i in 0..entries.len() {
        for j in i + 1..entries.len() {
            let (first, second) = (&entries[i].pattern, &entries[j].pattern);
            let merged = merge(first, second).pattern;
            let saved = (size(first) + size(second)).saturating_sub(size(&merged));
            if saved > most_saved {
                most_saved = saved;
                best = Some((i, j, merged));
            }
        }
    }
    let Some((i, j, merged)) = best else {
        return false;
    };
    entries[i].pattern = merged;
    entries[i].members |= entries[j].members;
    entries.remove(j);
    true
}

/// The entry with most steps, the first on ties, loses its last step.
fn cut_largest(entries: &mut [Entry]) {
    let sizes: Vec<usize> = entries.iter().map(|entry| size(&entry.pattern)).collect();
    let most = *sizes.iter().max().expect("more steps than the limit");
    let first = sizes.iter().position(|&size| size == most).unwrap();
    let mut steps = listed(&entries[first].pattern);
    steps.pop();
    entries[first].pattern = planted(&steps);
}
