//! Names in lines: labels that a careless reader would break off or take for something else, labels that are not
//! writable, and names that the sheet doesn't have.

use crate::beginnings::BARRED;
use crate::lines::is_writable;
use crate::random::Random;
use crate::trees::Sheet;

/// Letters, white space, a zero, bytes next to the barred ones or the same but for the highest bit, and quotes.
const BYTES: [u8; 32] = *b"aaaaabbc\xdd \r\t\x0b\x0c\0)+,-0Z\\^\"\x8a\xaa\xae\xaf\xc3\x97\xdb\xff";

/// Gives some of the labels that are used most such bytes; one in so many of these is not writable.
pub fn respell(random: &mut Random, sheet: &mut Sheet, unwritable_ones: usize) {
    let first = sheet.labels.len().min(4);
    for place in 0..first {
        if random.one_in(2) {
            continue;
        }
        let label = match random.one_in(unwritable_ones) {
            true => unwritable(random),
            false => spelled(random),
        };
        if !sheet.labels.contains(&label) {
            sheet.labels[place] = label;
        }
    }
}

fn spelled(random: &mut Random) -> Vec<u8> {
    let length = match random.below(12) {
        0 => 60,
        1 => 59,
        2 => random.between(4, 20),
        _ => random.between(1, 3),
    };
    (0..length).map(|_| random.pick(&BYTES)).collect()
}

/// A barred byte at the front, at the end, between others, or alone.
pub fn unwritable(random: &mut Random) -> Vec<u8> {
    let mut label = spelled(random);
    let barred = random.pick(&BARRED);
    let last = label.len() - 1;
    let any = random.between(0, last);
    label[random.pick(&[0, last, any])] = barred;
    label
}

/// The labels that can stand in a line.
pub fn readable(sheet: &Sheet) -> Vec<Vec<u8>> {
    let labels = sheet.labels.iter();
    labels.filter(|label| is_writable(label)).cloned().collect()
}

/// A name that can stand in a line and is none of the sheet's labels, though often near to one.
pub fn unknown(random: &mut Random, sheet: &Sheet) -> Vec<u8> {
    loop {
        let near = match sheet.labels.is_empty() {
            true => spelled(random),
            false => random.pick(&sheet.labels),
        };
        let name = match random.below(8) {
            0 | 1 => spelled(random),
            2 => [&near[..], &[random.pick(&BYTES)]].concat(),
            3 if near.len() > 1 => near[..near.len() - 1].to_vec(),
            4 => turned(random, near),
            5 => too_long(random, &near),
            // A length of one byte would be that of the label itself.
            6 => [near, vec![b'a'; 256]].concat(),
            _ => continue,
        };
        if is_writable(&name) && !sheet.labels.contains(&name) {
            return name;
        }
    }
}

/// One bit is another.
fn turned(random: &mut Random, mut name: Vec<u8>) -> Vec<u8> {
    let place = random.below(name.len());
    name[place] ^= 1 << random.below(8);
    name
}

/// Longer than any label of a sheet; often it begins with a whole one.
fn too_long(random: &mut Random, near: &[u8]) -> Vec<u8> {
    let length = random.pick(&[61, 61, 62, 64, 100, 255, 256, 300]);
    near.iter().cycle().take(length).copied().collect()
}
