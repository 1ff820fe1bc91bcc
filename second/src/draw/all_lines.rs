//! All short lines, sound or not, of the bytes that have a meaning in lines and one label byte.

use crate::question::Question;

const BYTES: [u8; 7] = *b"/*[].a\n";

/// Every line of at most so many of these bytes, the shorter ones first.
pub fn all_lines(most: usize) -> Vec<Vec<u8>> {
    let mut all = vec![Vec::new()];
    let mut shorter = 0..1;
    for _ in 0..most {
        for i in shorter.clone() {
            for byte in BYTES {
                let line = [&all[i][..], &[byte]].concat();
                all.push(line);
            }
        }
        shorter = shorter.end..all.len();
    }
    all
}

/// The line read with a sheet that has the labels a and aa, but no longer ones, and with room for two steps.
pub fn reading_of(line: &[u8]) -> Question {
    Question {
        letter: b'N',
        sheet: b"\x02\x01a\x02aa\0".to_vec(),
        line: line.to_vec(),
        room: 7,
        ..Question::default()
    }
}
