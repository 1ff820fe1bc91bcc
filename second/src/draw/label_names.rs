//! Label bytes: plain ones, odd ones, and ones that are nearly the same.

use crate::random::Random;

/// New labels, none of them twice and none of them taken.
pub fn new_labels(random: &mut Random, count: usize, taken: &[Vec<u8>]) -> Vec<Vec<u8>> {
    let mut labels: Vec<Vec<u8>> = Vec::new();
    while labels.len() < count {
        let label = one(random, count);
        if !taken.contains(&label) && !labels.contains(&label) {
            labels.push(label);
        }
    }
    labels
}

fn one(random: &mut Random, count: usize) -> Vec<u8> {
    // Where many are needed, most are just any bytes.
    let odd_ones = if count > 20 { 20 } else { 2 };
    if random.one_in(odd_ones) {
        return odd(random);
    }
    let length = match random.below(20) {
        0 => 60,
        1 => 59,
        2..=5 => random.between(4, 12),
        _ => random.between(1, 3),
    };
    let letters = random.one_in(2);
    let byte = |random: &mut Random| match letters {
        true => b'a' + random.below(3) as u8,
        false => random.byte(),
    };
    (0..length).map(|_| byte(random)).collect()
}

/// Bytes that a careless reader would replace, stop at, or take for something else.
fn odd(random: &mut Random) -> Vec<u8> {
    let short: [&[u8]; 16] = [
        b"Rosa \xc3\x97 alba",
        b"Rosa ? alba",
        b"Rosa \xd7 alba",
        b"Rosa \xc3\x97 albb",
        b"\xc3\x97",
        b"\xc3",
        b"\x97",
        b"?",
        b"\0",
        b"\0\0",
        b"\xff",
        b"\n",
        b"-",
        b"*",
        b"a",
        b"a\0",
    ];
    let long = [
        vec![b'a'; 59],
        vec![b'a'; 60],
        [vec![b'a'; 59], vec![b'b']].concat(),
        [vec![b'b'], vec![b'a'; 59]].concat(),
        vec![0; 60],
        vec![0xff; 60],
    ];
    if random.one_in(4) {
        random.pick(&long)
    } else {
        random.pick(&short).to_vec()
    }
}
