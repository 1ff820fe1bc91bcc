//! Tables: fair ones of several kinds, and ways to make them unfair.

use super::effort::{of_build, MOST_IN_MAKING};
use super::patterns::{narrower, wider};
use crate::building::{build, one_for_each, settled, steps_together};
use crate::covering::covers;
use crate::random::Random;
use crate::routing::has_member;
use crate::trees::{listed, planted, Entry, Sheet};

pub fn fair_table(random: &mut Random, sheet: &Sheet) -> Vec<Entry> {
    let mut entries = match random.below(6) {
        0 => one_for_each(sheet),
        1 => one_for_all(sheet),
        _ => build(sheet, cheap_limit(random, sheet)).entries,
    };
    if random.one_in(3) {
        random.shuffle(&mut entries);
    }
    match random.below(3) {
        0 if !entries.is_empty() => loosen(random, sheet, &mut entries),
        1 => entries.iter_mut().for_each(|entry| widen(random, entry)),
        _ => {}
    }
    entries
}

/// One entry that takes everything.
fn one_for_all(sheet: &Sheet) -> Vec<Entry> {
    let mut all = one_for_each(sheet);
    let members = all.iter().fold(0, |members, entry| members | entry.members);
    all.truncate(1);
    for entry in &mut all {
        entry.members = members;
        entry.pattern.clear();
    }
    all
}

/// Mostly a limit that takes some rounds to reach.
pub fn any_limit(random: &mut Random, sheet: &Sheet) -> u16 {
    let steps = steps_together(&settled(sheet));
    let limit = match random.below(10) {
        0 => 0,
        1 => random.between(0, 2),
        2 => steps,
        3 => steps.saturating_sub(1),
        4 => random.pick(&[255, 256, 1023, 1024, 65_535]),
        _ => random.between(0, steps),
    };
    limit as u16
}

/// A limit for which the build takes no long time.
fn cheap_limit(random: &mut Random, sheet: &Sheet) -> u16 {
    let limit = any_limit(random, sheet);
    if of_build(sheet, limit) > MOST_IN_MAKING {
        return u16::MAX;
    }
    limit
}

/// Widens an entry, or gives one of its members to another entry that covers it.
fn loosen(random: &mut Random, sheet: &Sheet, entries: &mut Vec<Entry>) {
    let place = random.below(entries.len());
    if random.one_in(2) {
        return widen(random, &mut entries[place]);
    }
    let member = any_member(random, &entries[place]);
    let pattern = &sheet.patterns[member];
    let takes = |other: &Entry| !has_member(other, member) && covers(&other.pattern, pattern);
    if let Some(other) = entries.iter().position(takes) {
        entries[other].members |= 1 << member;
        entries[place].members &= !(1 << member);
        entries.retain(|entry| entry.members != 0);
    }
}

/// A wider entry may match documents that none of its members matches.
fn widen(random: &mut Random, entry: &mut Entry) {
    let steps = listed(&entry.pattern);
    entry.pattern = planted(&wider(random, &steps));
}

fn any_member(random: &mut Random, entry: &Entry) -> usize {
    let members: Vec<usize> = (0..64).filter(|&i| has_member(entry, i)).collect();
    random.pick(&members)
}

/// Makes a fair table unfair, or tries to: a table can stay fair by chance.
pub fn make_unfair(random: &mut Random, sheet: &Sheet, entries: &mut Vec<Entry>) {
    let count = sheet.patterns.len();
    let way = random.below(8);
    if way == 0 || entries.is_empty() {
        return add_empty_entry(random, entries);
    }
    let place = random.below(entries.len());
    // Another entry, where there is one.
    let other = (place + random.between(1, entries.len().max(2) - 1)) % entries.len();
    let member = any_member(random, &entries[place]);
    match way {
        1 if count < 64 => entries[place].members |= 1 << random.between(count, 63),
        2 => entries[place].members &= !(1 << member),
        3 | 4 => entries[other].members |= 1 << member,
        5 => {
            entries[place].members &= !(1 << member);
            entries[other].members |= 1 << member;
        }
        6 => {
            let members = entries[place].members;
            entries[place].members = entries[other].members;
            entries[other].members = members;
        }
        _ => {
            let steps = listed(&entries[place].pattern);
            let narrow = narrower(random, &steps, sheet.labels.len());
            entries[place].pattern = planted(&narrow);
        }
    }
}

/// An entry that has no members, or only ones outside the sheet if there is room for those.
fn add_empty_entry(random: &mut Random, entries: &mut Vec<Entry>) {
    let place = random.between(0, entries.len());
    let members = if random.one_in(4) { 1 << 63 } else { 0 };
    let pattern = Vec::new();
    entries.insert(place, Entry { members, pattern });
    // 65 entries would be a fault of another kind.
    entries.truncate(64);
}
