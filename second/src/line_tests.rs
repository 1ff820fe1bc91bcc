//! Lines tried against their definition: all short texts beside all short lines.

use crate::draw::all_lines;
use crate::lines::{not_a_line, read, written, LONGEST};
use std::collections::HashSet;

/// All texts of each kind by their length, with the letter a as the only label byte.
#[derive(Default)]
struct Texts {
    rests: Vec<Vec<String>>,
    branch: Vec<Vec<String>>,
    bracketed: Vec<Vec<String>>,
    branches: Vec<Vec<String>>,
}

impl Texts {
    /// Those of one byte more, put together from shorter ones.
    fn grow(&mut self) {
        let length = self.rests.len();
        let names: Vec<Vec<String>> = (0..=length).map(names).collect();
        let mut rests = names[length].clone();
        rests.extend(pairs(&names, &self.branches, length));
        self.rests.push(rests);
        let mut branch = around("/", &self.rests, "", length);
        branch.extend(around("//", &self.rests, "", length));
        self.branch.push(branch);
        let mut bracketed = around("[", &self.branch, "]", length);
        bracketed.extend(around("[", &self.rests, "]", length));
        bracketed.extend(around("[.//", &self.rests, "]", length));
        self.bracketed.push(bracketed);
        let mut branches = self.branch[length].clone();
        branches.extend(self.bracketed[length].clone());
        branches.extend(pairs(&self.bracketed, &self.branches, length));
        self.branches.push(branches);
    }
}

fn names(length: usize) -> Vec<String> {
    match length {
        0 => Vec::new(),
        1 => vec!["a".to_string(), "*".to_string()],
        _ => vec!["a".repeat(length)],
    }
}

/// One text behind another, of this length together.
fn pairs(fronts: &[Vec<String>], backs: &[Vec<String>], length: usize) -> Vec<String> {
    let mut all = Vec::new();
    for first in 1..length {
        for front in &fronts[first] {
            let behind = backs[length - first].iter();
            all.extend(behind.map(|back| format!("{front}{back}")));
        }
    }
    all
}

/// A text with something before and behind it, of this length together; there are none of length 0.
fn around(front: &str, inner: &[Vec<String>], back: &str, length: usize) -> Vec<String> {
    let left = length.saturating_sub(front.len() + back.len());
    let whole = |text: &String| format!("{front}{text}{back}");
    inner[left].iter().map(whole).collect()
}

/// All lines of at most so many bytes.
fn lines(most: usize) -> Vec<String> {
    let mut texts = Texts::default();
    for _ in 0..=most {
        texts.grow();
    }
    let mut all = texts.branches.concat();
    all.push(".".to_string());
    all
}

/// All that lines begin with, the lines themselves included.
fn beginnings(lines: &[String]) -> HashSet<&str> {
    let mut all = HashSet::new();
    for line in lines {
        all.extend((0..=line.len()).map(|end| &line[..end]));
    }
    all
}

/// A line that begins with a text of six bytes need not have more than twelve: longest is what follows [a[a[. for that
/// is //a]]].
#[test]
fn the_place_is_where_no_line_goes_on() {
    let lines = lines(12);
    let whole: HashSet<&str> = lines.iter().map(|line| &line[..]).collect();
    let begun = beginnings(&lines);
    let labels = [b"a".to_vec()];
    let mut read_well = 0;
    for text in all_lines(6) {
        let text = String::from_utf8(text).unwrap();
        let fault = (0..text.len()).find(|i| !begun.contains(&text[..=*i]));
        let place = fault.unwrap_or(text.len());
        let expected = (!whole.contains(&text[..])).then_some(place);
        let got = not_a_line(text.as_bytes()).map(|(_, place)| place);
        assert_eq!(got, expected, "{text:?}");
        // That both ways of reading agree on it is asserted in there.
        read_well += read(text.as_bytes(), &labels).is_ok() as usize;
    }
    assert!(read_well > 60);
}

/// Whatever is read is written in a form that is not longer than 1,024 bytes and reads back; `written` asserts the
/// latter. What is written in that form is not changed by reading and writing it.
#[test]
fn what_is_written_reads_back() {
    let labels = [b"a".to_vec(), b"aa".to_vec(), b"aaa".to_vec()];
    let mut unchanged = 0;
    for line in lines(10) {
        let Ok(pattern) = read(line.as_bytes(), &labels) else {
            continue;
        };
        let again = written(&pattern, &labels).unwrap();
        assert!(again.len() <= LONGEST);
        let pattern = read(&again, &labels).unwrap();
        assert_eq!(written(&pattern, &labels).unwrap(), again);
        unchanged += (again == line.as_bytes()) as usize;
    }
    assert!(unchanged > 100);
}
