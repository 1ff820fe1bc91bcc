//! Sound lines of a given length, for the longest that is read and its neighbours.

use super::lines::{any_manner, leave_one_near, sound_line, twigs, written, Manner, Shape};
use crate::beginnings::BARRED;
use crate::lines::LONGEST;
use crate::random::Random;
use crate::trees::Sheet;

/// So often forms are drawn until a line has the wanted length.
const TRIES: usize = 40;

/// The longest line that is read, or a byte or two less or more.
pub fn about_longest(random: &mut Random) -> usize {
    random.pick(&[LONGEST - 1, LONGEST, LONGEST, LONGEST + 1, LONGEST + 2])
}

/// A line of some sixteen steps, all with the sheet's longest labels; none if it has no long ones, or by chance.
pub fn of_known_labels(random: &mut Random, sheet: &Sheet, length: usize) -> Option<Vec<u8>> {
    let mut manner = any_manner(random, sheet);
    manner.names.retain(|label| label.len() >= 58);
    if manner.names.is_empty() {
        return None;
    }
    // Sixteen steps come to 1,024 bytes only if nearly all are far and in brackets.
    manner.any_ones = 1_000;
    manner.shape = random.pick(&[Shape::Row, Shape::Row, Shape::Any]);
    manner.plain = random.one_in(8);
    for _ in 0..TRIES {
        manner.far_ones = random.pick(&[1, 1, 1, 2]);
        manner.bracket_ones = random.pick(&[1, 1, 2]);
        manner.short_ones = random.pick(&[2, 4, 8, 100]);
        let count = random.pick(&[16, 16, 16, 16, 16, 17]);
        let line = one_near(random, count, &manner);
        if line.len() == length {
            return Some(line);
        }
    }
    None
}

fn one_near(random: &mut Random, count: usize, manner: &Manner) -> Vec<u8> {
    let mut branches = twigs(random, count, manner);
    leave_one_near(&mut branches);
    written(random, &branches, manner)
}

/// A sound line of this length, which is at least some hundred bytes.
pub fn of_length(random: &mut Random, sheet: &Sheet, length: usize) -> Vec<u8> {
    if let Some(line) = of_known_labels(random, sheet, length) {
        return line;
    }
    loop {
        let line = sound_line(random, sheet);
        if line == b"." || line.len() + 5 > length {
            continue;
        }
        return match random.below(3) {
            0 => with_more_before(line, length),
            _ => with_a_longer_name(random, line, length),
        };
    }
}

/// Branches in brackets are put before the others.
fn with_more_before(line: Vec<u8>, length: usize) -> Vec<u8> {
    let missing = length - line.len();
    let mut longer = match missing % 3 {
        0 => Vec::new(),
        1 => b"[/*]".to_vec(),
        _ => b"[//*]".to_vec(),
    };
    while longer.len() < missing {
        longer.extend(b"[*]");
    }
    longer.extend(line);
    longer
}

/// A label gets as many bytes more as are missing; where there is no label, a * becomes one.
fn with_a_longer_name(random: &mut Random, mut line: Vec<u8>, length: usize) -> Vec<u8> {
    let is_label_byte = |line: &[u8], i: usize| !BARRED.contains(&line[i]);
    let all = 0..line.len();
    let mut places: Vec<usize> = all.filter(|&i| is_label_byte(&line, i)).collect();
    if places.is_empty() {
        let any = line.iter().position(|&byte| byte == b'*').expect("a name");
        line[any] = b'a';
        places.push(any);
    }
    let place = random.pick(&places);
    let fill = vec![random.pick(b"ab \r\0\xff"); length - line.len()];
    line.splice(place..place, fill);
    line
}

#[cfg(test)]
mod tests {
    use super::*;
    use crate::beginnings::{verdict, Verdict};
    use crate::draw::lines::deep_line;
    use crate::draw::sheets::{sheet, Size};
    use crate::lines::read;

    #[test]
    fn lines_are_sound_and_as_long_as_wanted() {
        let mut random = Random::new(5);
        for size in [Size::Tiny, Size::Small, Size::Full, Size::Small] {
            let sheet = sheet(&mut random, size);
            for length in [300, LONGEST - 1, LONGEST, LONGEST + 1, 2_000] {
                let line = of_length(&mut random, &sheet, length);
                assert_eq!(line.len(), length);
                assert_eq!(verdict(&line), Verdict::Sound);
                let line = sound_line(&mut random, &sheet);
                assert_eq!(verdict(&line), Verdict::Sound);
                let line = deep_line(&mut random, &sheet);
                assert_eq!(verdict(&line), Verdict::Sound);
            }
        }
    }

    #[test]
    fn the_longest_lines_can_be_read() {
        let mut random = Random::new(5);
        let sheet = sheet(&mut random, Size::Full);
        let mut lines = (0..40).filter_map(|_| of_known_labels(&mut random, &sheet, LONGEST));
        assert!(lines.any(|line| read(&line, &sheet.labels).is_ok()));
    }
}
