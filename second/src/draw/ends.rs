//! Streams that end in an unknown letter, inside a question, or before the first one.

use super::turns::Draw;
use crate::question::parts_of;
use crate::random::Random;

/// A stream of bytes, and the lines that it should have.
pub struct Ending {
    pub stream: Vec<u8>,
    pub lines: Vec<String>,
}

/// So many streams of these letters; the kinds take turns.
pub fn ends(seed: u64, count: usize, letters: &[u8]) -> Vec<Ending> {
    let mut random = Random::new(!seed);
    let mut draw = Draw::of(letters, random.next());
    let mut list = Vec::new();
    for i in 0..count {
        let mut ending = Ending {
            stream: Vec::new(),
            lines: Vec::new(),
        };
        for _ in 0..random.between(0, 4) {
            let (question, answer) = draw.next();
            ending.stream.extend(question.bytes());
            ending.lines.push(answer.line);
        }
        match i % 5 {
            0 | 1 => end_unknown(&mut random, &mut draw, &mut ending),
            2 | 3 => end_cut(&mut random, &mut draw, &mut ending),
            _ if i % 10 == 4 => ending = empty(),
            _ => {}
        }
        list.push(ending);
    }
    list
}

fn empty() -> Ending {
    Ending {
        stream: Vec::new(),
        lines: Vec::new(),
    }
}

/// What stands behind an unknown letter is never answered.
fn end_unknown(random: &mut Random, draw: &mut Draw, ending: &mut Ending) {
    let any = random.byte();
    let letter = random.pick(&[0, b'\n', b' ', b's', b'A', b'Z', b'X', 255, any]);
    if parts_of(letter).is_some() {
        return;
    }
    ending.stream.push(letter);
    if random.one_in(2) {
        ending.stream.extend(draw.next().0.bytes());
    }
    ending.lines.push("unknown".to_string());
}

fn end_cut(random: &mut Random, draw: &mut Draw, ending: &mut Ending) {
    let bytes = draw.next().0.bytes();
    let any = random.between(1, bytes.len() - 1);
    let kept = random.pick(&[1, 2, bytes.len() - 1, any, any]);
    ending.stream.extend(&bytes[..kept]);
    ending.lines.push("cut".to_string());
}
