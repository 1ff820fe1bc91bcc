//! Lines that draw a refusal, or mostly do: edited, cut, with a fault at a given place, too long, with unknown labels,
//! with too many steps or a second near root step.

use super::line_lengths::{about_longest, of_length};
use super::line_names::unknown;
use super::lines::{any_manner, any_twig, deep_line, sound_line, twigs, written, Shape, Twig};
use crate::beginnings::{verdict, Verdict, BARRED};
use crate::lines::LONGEST;
use crate::numbers::{Judged, Refusal, COUNT, UNKNOWN_LABEL};
use crate::random::Random;
use crate::trees::Sheet;

/// A line for which this refusal is likely.
pub fn line_for(random: &mut Random, sheet: &Sheet, aim: Refusal) -> Vec<u8> {
    match (aim.judged, aim.number) {
        (Judged::Fault, _) => faulty(random, sheet),
        (Judged::Early, _) => early(random, sheet),
        (Judged::Late, _) => late(random, sheet),
        (Judged::Longer, _) => longer(random, sheet),
        (_, UNKNOWN_LABEL) => with_unknown(random, sheet),
        (_, COUNT) => with_too_many(random, sheet),
        _ => with_two_near(random, sheet),
    }
}

fn faulty(random: &mut Random, sheet: &Sheet) -> Vec<u8> {
    match random.below(8) {
        0 => jumble(random),
        1 | 2 => {
            let length = about_longest(random) + random.below(20);
            let line = of_length(random, sheet, length);
            let place = LONGEST - random.between(1, 6);
            with_fault_at(random, line, place)
        }
        3 => {
            let line = sound_or_deep(random, sheet);
            let place = random.between(0, line.len());
            with_fault_at(random, line, place)
        }
        // A text editor's ends of lines, which the notation doesn't have.
        4 => {
            let end: &[u8] = random.pick(&[b"\n", b"\n", b"\r\n", b"\n\n", b"\0\n"]);
            [&sound_or_deep(random, sheet)[..], end].concat()
        }
        _ => {
            let mut line = sound_or_deep(random, sheet);
            edit(random, &mut line);
            line
        }
    }
}

fn sound_or_deep(random: &mut Random, sheet: &Sheet) -> Vec<u8> {
    match random.one_in(6) {
        true => deep_line(random, sheet),
        false => sound_line(random, sheet),
    }
}

/// A few bytes in any order.
fn jumble(random: &mut Random) -> Vec<u8> {
    let length = random.between(1, 9);
    (0..length).map(|_| random.pick(b"//[[]]*.aa\n")).collect()
}

/// A byte that no line could have at this place, before what stands there or in its stead.
fn with_fault_at(random: &mut Random, mut line: Vec<u8>, place: usize) -> Vec<u8> {
    let mut bytes = BARRED.to_vec();
    bytes.push(b'a');
    random.shuffle(&mut bytes);
    let behind = line.split_off(place);
    for byte in bytes {
        line.push(byte);
        if verdict(&line) == Verdict::Fault(place) {
            break;
        }
        line.pop();
    }
    match random.below(3) {
        0 => {}
        1 => line.extend(&behind),
        _ => line.extend(behind.iter().skip(1)),
    }
    line
}

/// Bytes removed, put in, replaced, exchanged, cut off or doubled, one to three times.
pub fn edit(random: &mut Random, line: &mut Vec<u8>) {
    for _ in 0..random.pick(&[1, 1, 1, 2, 3]) {
        let place = random.between(0, line.len());
        let any = random.byte();
        let byte = random.pick(&[b'/', b'/', b'*', b'[', b']', b'.', b'\n', b'a', any]);
        match random.below(8) {
            0 | 1 => line.insert(place, byte),
            2 => line.truncate(place),
            _ if place == line.len() => line.push(byte),
            3 => drop(line.remove(place)),
            4 if place > 0 => line.swap(place - 1, place),
            5 => {
                let other = random.below(line.len());
                line.swap(other, place);
            }
            6 => {
                let end = (place + random.between(1, 6)).min(line.len());
                let doubled = line[place..end].to_vec();
                line.splice(place..place, doubled);
            }
            _ => line[place] = byte,
        }
    }
}

/// Cut at any place, often just before the end or at the longest length that is read.
fn early(random: &mut Random, sheet: &Sheet) -> Vec<u8> {
    if random.one_in(3) {
        let length = LONGEST + random.between(1, 80);
        let mut line = of_length(random, sheet, length);
        line.truncate(LONGEST - random.below(3));
        return line;
    }
    let mut line = sound_or_deep(random, sheet);
    let last = line.len() - 1;
    let any = random.between(0, last);
    line.truncate(random.pick(&[last, any, any, LONGEST]));
    line
}

/// The first 1,024 bytes could begin a line, and so could some more; then there is a fault, or the end.
fn late(random: &mut Random, sheet: &Sheet) -> Vec<u8> {
    let more = match random.below(6) {
        0 => random.between(3, 2_000),
        _ => random.below(3),
    };
    let length = LONGEST + more + random.between(1, 80);
    let mut line = of_length(random, sheet, length);
    if random.one_in(3) {
        line.truncate(LONGEST + 1 + more);
        return line;
    }
    with_fault_at(random, line, LONGEST + more)
}

fn longer(random: &mut Random, sheet: &Sheet) -> Vec<u8> {
    let any = LONGEST + random.between(3, 3_000);
    let most = match random.one_in(20) {
        true => 65_535,
        false => 1_040,
    };
    let length = random.pick(&[LONGEST + 1, LONGEST + 1, LONGEST + 2, most, any]);
    of_length(random, sheet, length)
}

/// Some have too many steps or several near ones at the root as well, but are judged for their labels first.
fn with_unknown(random: &mut Random, sheet: &Sheet) -> Vec<u8> {
    let manner = any_manner(random, sheet);
    let few = random.between(1, 8);
    let count = random.pick(&[few, few, few, 16, 17, 18, 30]);
    let mut branches = twigs(random, count, &manner);
    for _ in 0..random.pick(&[1, 1, 1, 2]) {
        *any_twig(random, &mut branches) = unknown(random, sheet);
    }
    written(random, &branches, &manner)
}

/// Some have several near ones at the root as well; many are deep.
fn with_too_many(random: &mut Random, sheet: &Sheet) -> Vec<u8> {
    if random.one_in(2) {
        return deep_line(random, sheet);
    }
    let mut manner = any_manner(random, sheet);
    let count = random.pick(&[17, 17, 17, 18, 18, 33, 100, 256, 257, 272, 340]);
    if count > 20 {
        manner.names.retain(|label| label.len() <= 4);
    }
    let branches = twigs(random, count, &manner);
    written(random, &branches, &manner)
}

fn with_two_near(random: &mut Random, sheet: &Sheet) -> Vec<u8> {
    let mut manner = any_manner(random, sheet);
    if manner.shape == Shape::Chain {
        manner.shape = Shape::Row;
    }
    let any = random.between(2, 16);
    let count = random.pick(&[2, 3, any, any, 15, 16]);
    let mut branches = twigs(random, count, &manner);
    make_near(random, &mut branches);
    written(random, &branches, &manner)
}

/// Two of the branches at the root, if there are two.
fn make_near(random: &mut Random, roots: &mut [Twig]) {
    if roots.len() < 2 {
        return;
    }
    let first = random.below(roots.len());
    let second = (first + random.between(1, roots.len() - 1)) % roots.len();
    roots[first].far = false;
    roots[second].far = false;
}

#[cfg(test)]
mod tests {
    use super::*;
    use crate::draw::sheets::{sheet, Size};
    use crate::lines::not_a_line;
    use crate::numbers::NOT_A_LINE;

    /// Draws until there was a line with this fault at this place.
    fn comes_up(random: &mut Random, judged: Judged, place: usize) -> bool {
        let number = NOT_A_LINE;
        let sheet = sheet(random, Size::Full);
        let mut lines = (0..1_000).map(|_| line_for(random, &sheet, Refusal { judged, number }));
        lines.any(|line| not_a_line(&line) == Some((judged, place)))
    }

    #[test]
    fn faults_come_up_beside_the_longest_length() {
        let mut random = Random::new(5);
        for place in [LONGEST - 2, LONGEST - 1] {
            assert!(comes_up(&mut random, Judged::Fault, place), "{place}");
        }
        for place in [LONGEST - 2, LONGEST - 1, LONGEST] {
            assert!(comes_up(&mut random, Judged::Early, place), "{place}");
        }
        assert!(comes_up(&mut random, Judged::Late, LONGEST));
        assert!(comes_up(&mut random, Judged::Longer, LONGEST));
    }
}
