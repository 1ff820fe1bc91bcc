//! Damage: faults aimed at one of the numbers, and bytes changed at random.

use super::fields::{Field, Kind};
use crate::numbers::*;
use crate::random::Random;

/// What a fault must know of the part it goes into.
pub struct Around<'a> {
    /// The labels that the sheet has taken, if the part is a document.
    pub taken: &'a [Vec<u8>],
    /// The highest label number that a step or node may have.
    pub highest: usize,
}

/// Puts in a fault that should draw this number, and often something behind it.
/// False if the part has no place for such a fault.
pub fn spoil(random: &mut Random, fields: &mut Vec<Field>, number: u8, around: &Around) -> bool {
    let place = match number {
        ENDS => cut(random, fields),
        REMAINS => add_behind(random, fields),
        LENGTH => bad_length(random, fields),
        REPEATED => repeat_label(random, fields, around),
        COUNT => bad_count(random, fields, around),
        PARENT => bad_parent(random, fields),
        AXIS => bad_axis(random, fields),
        LABEL => bad_label(random, fields, around),
        SECOND_NEAR => second_near(random, fields),
        _ => None,
    };
    let Some(place) = place else {
        return false;
    };
    // The bytes may end just behind the fault, or hold another fault there.
    if random.one_in(4) {
        fields.truncate(place + 1);
    } else if random.one_in(3) && place + 1 < fields.len() {
        let later = random.between(place + 1, fields.len() - 1);
        for byte in &mut fields[later].bytes {
            *byte = random.byte();
        }
    }
    true
}

/// A field of one of these kinds.
fn any_field(random: &mut Random, fields: &[Field], kinds: &[Kind]) -> Option<usize> {
    let is_one = |&i: &usize| kinds.contains(&fields[i].kind);
    let places: Vec<usize> = (0..fields.len()).filter(is_one).collect();
    if places.is_empty() {
        return None;
    }
    Some(random.pick(&places))
}

fn cut(random: &mut Random, fields: &mut Vec<Field>) -> Option<usize> {
    let place = match random.below(4) {
        0 => fields.len() - 1,
        _ => random.below(fields.len()),
    };
    fields.truncate(place + 1);
    let left = random.below(fields[place].bytes.len());
    fields[place].bytes.truncate(left);
    Some(place)
}

fn add_behind(random: &mut Random, fields: &mut Vec<Field>) -> Option<usize> {
    let there: usize = fields.iter().map(|field| field.bytes.len()).sum();
    let count = match random.below(40) {
        0 => 65_535 - there,
        1 => random.between(200, 300),
        _ => random.between(1, 3),
    };
    let any = random.byte();
    let fill = random.pick(&[0, 1, any]);
    fields.push(Field {
        kind: Kind::Behind,
        bytes: vec![fill; count],
    });
    Some(fields.len() - 1)
}

fn bad_length(random: &mut Random, fields: &mut [Field]) -> Option<usize> {
    let place = any_field(random, fields, &[Kind::LabelLength])?;
    let length = random.pick(&[0, 0, 61, 61, 62, 128, 255]);
    fields[place].bytes = vec![length];
    // The label is often there in its full length, so that the length alone is at fault.
    if random.one_in(2) {
        fields[place + 1].bytes = vec![random.byte(); length as usize];
    }
    Some(place)
}

fn repeat_label(random: &mut Random, fields: &mut [Field], around: &Around) -> Option<usize> {
    let place = any_field(random, fields, &[Kind::LabelLength])?;
    let earlier = fields[..place].iter();
    let of_part = earlier.filter(|field| field.kind == Kind::LabelBytes);
    let mut labels: Vec<Vec<u8>> = of_part.map(|field| field.bytes.clone()).collect();
    if labels.is_empty() || random.one_in(2) {
        labels.extend_from_slice(around.taken);
    }
    if labels.is_empty() {
        return None;
    }
    let label = random.pick(&labels);
    fields[place].bytes = vec![label.len() as u8];
    fields[place + 1].bytes = label;
    Some(place + 1)
}

fn bad_count(random: &mut Random, fields: &mut [Field], around: &Around) -> Option<usize> {
    use Kind::*;
    // The kind first, for there are many counts of steps and only one of the others.
    let kind = random.pick(&[PatternCount, EntryCount, StepCount, NodeCount, LabelCount]);
    let place = any_field(random, fields, &[kind])?;
    let over = |random: &mut Random, most: usize| {
        let any = random.between(most + 1, 255);
        random.pick(&[most + 1, any, 255]) as u8
    };
    fields[place].bytes = match fields[place].kind {
        PatternCount | EntryCount => vec![over(random, 64)],
        StepCount => vec![over(random, 16)],
        NodeCount => {
            let any = random.between(1025, 65_535) as u16;
            let count = random.pick(&[0, 1025, 1280, 65_535, any]);
            count.to_le_bytes().to_vec()
        }
        // Only beside other labels can a count of labels be too high.
        _ if around.taken.is_empty() => return None,
        _ => vec![over(random, 255 - around.taken.len())],
    };
    Some(place)
}

/// How many fields of its kind there are up to this one, since the last count.
fn own_number(fields: &[Field], place: usize) -> usize {
    let kind = fields[place].kind;
    let is_count = |field: &Field| matches!(field.kind, Kind::StepCount | Kind::NodeCount);
    let back = fields[..=place].iter().rev();
    let since = back.take_while(|field| !is_count(field));
    since.filter(|field| field.kind == kind).count()
}

fn bad_parent(random: &mut Random, fields: &mut [Field]) -> Option<usize> {
    let place = any_field(random, fields, &[Kind::Parent, Kind::NodeParent])?;
    let own = own_number(fields, place);
    if fields[place].kind == Kind::Parent {
        let earlier = random.between(0, own);
        let parent = random.pick(&[own, own + 1, earlier, earlier, earlier, 255]);
        fields[place].bytes = vec![parent as u8];
    } else {
        let any = random.between(0, 65_535);
        let high = random.between(1, 255) * 256;
        let parent = random.pick(&[0, own, own + 1, high, any, 65_535]);
        fields[place].bytes = (parent as u16).to_le_bytes().to_vec();
    }
    Some(place)
}

fn bad_axis(random: &mut Random, fields: &mut [Field]) -> Option<usize> {
    let place = any_field(random, fields, &[Kind::Axis])?;
    let any = random.between(2, 255) as u8;
    fields[place].bytes = vec![random.pick(&[2, 3, 128, 129, 254, 255, any])];
    Some(place)
}

fn bad_label(random: &mut Random, fields: &mut [Field], around: &Around) -> Option<usize> {
    let place = any_field(random, fields, &[Kind::Label, Kind::NodeLabel])?;
    let mut labels: Vec<usize> = Vec::new();
    if around.highest < 255 {
        let any = random.between(around.highest + 1, 255);
        labels.extend([around.highest + 1, any, 255]);
    }
    if fields[place].kind == Kind::NodeLabel {
        labels.push(0);
    }
    if labels.is_empty() {
        return None;
    }
    fields[place].bytes = vec![random.pick(&labels) as u8];
    Some(place)
}

/// Makes a step that follows a near root step another one.
fn second_near(random: &mut Random, fields: &mut [Field]) -> Option<usize> {
    let has_next_step = |i: usize| fields.get(i + 3).is_some_and(|f| f.kind == Kind::Parent);
    let is_first = |&i: &usize| {
        let near_root = fields[i].bytes == [0] && fields[i].kind == Kind::Parent;
        near_root && fields[i + 1].bytes == [0] && has_next_step(i)
    };
    let firsts: Vec<usize> = (0..fields.len()).filter(is_first).collect();
    if firsts.is_empty() {
        return None;
    }
    let mut place = random.pick(&firsts) + 3;
    while has_next_step(place) && random.one_in(2) {
        place += 3;
    }
    fields[place].bytes = vec![0];
    fields[place + 1].bytes = vec![0];
    Some(place + 1)
}

/// Changes, adds or removes a few bytes anywhere.
pub fn scramble(random: &mut Random, bytes: &mut Vec<u8>) {
    for _ in 0..random.between(1, 3) {
        let place = random.between(0, bytes.len());
        let any = random.byte();
        let byte = random.pick(&[0, 1, 2, 255, any]);
        match random.below(6) {
            0 => bytes.insert(place, byte),
            1 => bytes.truncate(place),
            _ if place == bytes.len() => bytes.push(byte),
            2 => drop(bytes.remove(place)),
            3 => bytes[place] ^= 1 << random.below(8),
            4 => bytes[place] = bytes[place].wrapping_add(1),
            _ => bytes[place] = byte,
        }
    }
    bytes.truncate(65_535);
}
