//! The rose bench examples of document 01 and the readings that docs/DECISIONS.md takes, asked as questions. Those
//! about starred leaves stand in `starred_examples`, those about lines in `line_examples`.

use crate::answers::answer;
use crate::line_examples;
use crate::notation::pattern;
use crate::printing::printed;
use crate::question::Question;
use crate::starred_examples;
use crate::trees::{written, written_table, Entry};

pub const ROSE_LABELS: [&str; 3] = ["CD", "SONY", "Bach"];
pub const ROSE_PATTERNS: [&str; 3] = ["/CD[/SONY][/*/Bach]", "//CD/Bach", "/CD"];
/// The tables of R for limits 3 and 2, as entries (members, pattern).
const LIMIT_3: [(u64, &str); 2] = [(2, "//CD/Bach"), (5, "/CD")];
const LIMIT_2: [(u64, &str); 1] = [(7, "//CD")];
pub const ABC: [&str; 3] = ["a", "b", "c"];

/// A question of a name, the line it should have, and the line it has.
pub struct Example {
    pub name: String,
    pub expected: String,
    pub got: String,
}

pub fn all() -> Vec<Example> {
    let mut list = Vec::new();
    matching_examples(&mut list);
    covering_examples(&mut list);
    merging_examples(&mut list);
    building_examples(&mut list);
    wanting_examples(&mut list);
    wanting_refused(&mut list);
    printing_examples(&mut list);
    printing_of_little(&mut list);
    limit_examples(&mut list);
    byte_examples(&mut list);
    misreadings(&mut list);
    starred_examples::add_all(&mut list);
    line_examples::add_all(&mut list);
    list
}

pub fn add(list: &mut Vec<Example>, name: &str, question: Question, expected: &str) {
    list.push(Example {
        name: name.to_string(),
        expected: expected.to_string(),
        got: answer(&question).line,
    });
}

pub fn question(letter: u8, sheet: &[u8]) -> Question {
    Question {
        letter,
        sheet: sheet.to_vec(),
        ..Question::default()
    }
}

pub fn label_section(labels: &[&[u8]]) -> Vec<u8> {
    let mut bytes = vec![labels.len() as u8];
    for label in labels {
        bytes.push(label.len() as u8);
        bytes.extend(*label);
    }
    bytes
}

pub fn sheet_of(labels: &[&str], patterns: &[&str]) -> Vec<u8> {
    let label_bytes: Vec<&[u8]> = labels.iter().map(|l| l.as_bytes()).collect();
    let mut bytes = label_section(&label_bytes);
    bytes.push(patterns.len() as u8);
    for text in patterns {
        bytes.extend(written(&pattern(text, labels)));
    }
    bytes
}

/// A document of new labels and of nodes (parent, label).
fn document_of(labels: &[&[u8]], nodes: &[(u16, u8)]) -> Vec<u8> {
    let mut bytes = label_section(labels);
    bytes.extend((nodes.len() as u16).to_le_bytes());
    for (parent, label) in nodes {
        bytes.extend(parent.to_le_bytes());
        bytes.push(*label);
    }
    bytes
}

fn rose() -> Vec<u8> {
    sheet_of(&ROSE_LABELS, &ROSE_PATTERNS)
}

/// CD over SONY and composer, composer over Bach.
fn d1() -> Vec<u8> {
    document_of(&[b"composer"], &[(0, 1), (1, 2), (1, 4), (3, 3)])
}

fn matching_examples(list: &mut Vec<Example>) {
    let mut sheet = question(b'S', &rose());
    add(list, "sheet R is sound", sheet.clone(), "0");
    let section = [
        3, 4, 0, 0, 1, 1, 0, 2, 1, 0, 0, 3, 0, 3, 2, 0, 1, 1, 1, 0, 3, 1, 0, 0, 1,
    ];
    sheet.sheet = label_section(&[b"CD", b"SONY", b"Bach"]);
    sheet.sheet.extend(section);
    assert_eq!(sheet.sheet, rose(), "the pattern section of document 01");
    for (i, expected) in ["0 1", "0 0", "0 1"].iter().enumerate() {
        let mut matches = question(b'M', &rose());
        matches.document = d1();
        matches.numbers = vec![i as u64];
        add(list, &format!("1: D1 and s{i}"), matches, expected);
    }
    let mut plain = question(b'P', &rose());
    plain.document = d1();
    add(list, "1: plain route", plain, "0 0000000000000005 2 0");
    let mut sony = question(b'P', &rose());
    sony.document = document_of(&[], &[(0, 2)]);
    add(list, "2: SONY alone", sony, "0 0000000000000000 0 64");
    // The second easy way to lose a notice: //CD finds a root named CD.
    let mut at_root = question(b'P', &sheet_of(&["CD"], &["//CD", "/*", "[//*][//CD]"]));
    at_root.document = document_of(&[], &[(0, 1)]);
    add(list, "//CD at the root", at_root, "0 0000000000000007 3 0");
}

fn covering_examples(list: &mut Vec<Example>) {
    let mut ask = |name: &str, first: &str, second: &str, yes: u8| {
        let labels = ["CD", "SONY", "Bach", "b"];
        let mut covers = question(b'C', &sheet_of(&labels, &[first, second]));
        covers.numbers = vec![0, 1];
        add(list, name, covers, &format!("0 {yes}"));
    };
    let [s0, s1, s2] = ROSE_PATTERNS;
    ask("3: s2 covers s0", s2, s0, 1);
    ask("3: s0 and s2", s0, s2, 0);
    ask("4: s1 and s0", s1, s0, 0);
    ask("4: //Bach covers s0", "//Bach", s0, 1);
    ask("4: //Bach covers s1", "//Bach", s1, 1);
    ask("5: no steps cover s0", ".", s0, 1);
    ask("5: //* and no steps", "//*", ".", 0);
    ask("6: /* covers //CD", "/*", "//CD", 1);
    ask("7: /*//b and //*/b", "/*//b", "//*/b", 0);
    ask("7: //*/b and /*//b", "//*/b", "/*//b", 0);
}

/// The merge of two patterns, written with 3 bytes of room to spare.
fn merging(labels: &[&str], first: &str, second: &str) -> Question {
    let mut merge = question(b'G', &sheet_of(labels, &[first, second]));
    merge.numbers = vec![0, 1];
    merge
}

pub fn add_merge(list: &mut Vec<Example>, name: &str, labels: &[&str], texts: [&str; 3]) {
    let [first, second, merged] = texts;
    let bytes = written(&pattern(merged, labels));
    let mut merge = merging(labels, first, second);
    merge.room = bytes.len() as u16 + 3;
    let hex = crate::question::hex(&bytes);
    let expected = format!("0 {} 0 {hex}a5a5a5", bytes.len());
    add(list, name, merge.clone(), &expected);
    merge.room = bytes.len() as u16 - 1;
    let as_found = "a5".repeat(bytes.len() - 1);
    let expected = format!("10 0 0 {as_found}");
    add(list, &format!("{name}, no room"), merge, &expected);
}

fn merging_examples(list: &mut Vec<Example>) {
    let texts = ["/a/b", "/a/c", "/a/*"];
    add_merge(list, "8: /a/b with /a/c", &ABC, texts);
    let [s0, s1, _] = ROSE_PATTERNS;
    let texts = [s0, s1, "[//CD//Bach][//*/Bach]"];
    add_merge(list, "9: s0 with s1", &ROSE_LABELS, texts);
}

/// A table of entries (members, pattern).
pub fn table_of(labels: &[&str], entries: &[(u64, &str)]) -> Vec<u8> {
    let entry = |&(members, text): &(u64, &str)| Entry {
        members,
        pattern: pattern(text, labels),
    };
    let entries: Vec<Entry> = entries.iter().map(entry).collect();
    written_table(&entries)
}

fn rose_table(entries: &[(u64, &str)]) -> Vec<u8> {
    table_of(&ROSE_LABELS, entries)
}

fn building_examples(list: &mut Vec<Example>) {
    let limit_3 = rose_table(&LIMIT_3);
    let limit_2 = rose_table(&LIMIT_2);
    let limit_0 = rose_table(&[(7, ".")]);
    let expected = [(3, &limit_3, 0), (2, &limit_2, 1), (0, &limit_0, 2)];
    for (limit, table, rounds) in expected {
        let mut build = question(b'B', &rose());
        build.limit = limit;
        build.room = table.len() as u16;
        let line = format!("0 {} {rounds} {}", table.len(), crate::question::hex(table));
        let name = format!("10, 11: R at limit {limit}");
        add(list, &name, build, &line);
    }
    let mut route = question(b'R', &rose());
    route.table = limit_3;
    route.document = d1();
    add(list, "12: D1 by the table", route, "0 0000000000000005 4");
    let mut check = question(b'T', &rose());
    check.table = rose_table(&[(2, "//CD/Bach"), (5, "/SONY")]);
    add(list, "a table that is not fair", check, "12");
}

/// Is it wanted by a subscription of R?
fn wanting(entries: &[(u64, &str)], document: Vec<u8>) -> Question {
    let mut wanted = question(b'W', &rose());
    wanted.table = rose_table(entries);
    wanted.document = document;
    wanted
}

fn wanting_examples(list: &mut Vec<Example>) {
    add(list, "D1 is wanted", wanting(&LIMIT_3, d1()), "0 1");
    let vain_first = [(2, "//CD"), (5, "/CD")];
    let name = "D1 is wanted, after an entry in vain";
    add(list, name, wanting(&vain_first, d1()), "0 1");
    // SONY over CD: //CD matches, and all of its members ask for more.
    let cd_below = document_of(&[], &[(0, 2), (1, 1)]);
    let name = "only an entry matches";
    add(list, name, wanting(&LIMIT_2, cd_below), "0 0");
    let sony = document_of(&[], &[(0, 2)]);
    add(list, "SONY is not wanted", wanting(&LIMIT_3, sony), "0 0");
    let mut nobody = question(b'W', &[0, 0]);
    nobody.table = vec![0];
    nobody.document = document_of(&[b"CD"], &[(0, 1)]);
    add(list, "no subscriptions: not wanted", nobody, "0 0");
}

/// The first entry has a member that matches; what is refused stands behind it.
fn wanting_refused(list: &mut Vec<Example>) {
    let mut unfair = wanting(&[(5, "/CD"), (2, "/SONY")], d1());
    add(list, "wanted, but not fair", unfair.clone(), "12 0");
    unfair.document.pop();
    add(list, "not fair, and a cut document", unfair, "12 0");
    let fair = wanting(&[(5, "/CD"), (2, "//CD/Bach")], d1());
    let mut cut = fair.clone();
    cut.table.pop();
    add(list, "wanted, but the table ends", cut, "1 0");
    let mut remains = fair;
    remains.document.push(0);
    add(list, "wanted, but bytes remain", remains, "2 0");
}

/// What is printed for a limit and a sheet, escaped.
fn add_print(list: &mut Vec<Example>, name: &str, input: &[u8], expected: &[u8]) {
    list.push(Example {
        name: name.to_string(),
        expected: expected.escape_ascii().to_string(),
        got: printed(input).escape_ascii().to_string(),
    });
}

fn printing_examples(list: &mut Vec<Example>) {
    let mut print = |name: &str, limit: u16, sheet: &[u8], expected: &[u8]| {
        let input = [&limit.to_le_bytes(), sheet].concat();
        add_print(list, name, &input, expected);
    };
    let limit_3 = b"3 subscriptions, 2 entries, 3 steps, 0 rounds\n1: //CD/Bach\n0,2: /CD\n";
    print("R at limit 3 is printed", 3, &rose(), limit_3);
    print("R at limit 256 is printed", 256, &rose(), limit_3);
    let limit_2 = b"3 subscriptions, 1 entries, 1 steps, 1 rounds\n0,1,2: //CD\n";
    print("R at limit 2 is printed", 2, &rose(), limit_2);
    let limit_0 = b"3 subscriptions, 1 entries, 0 steps, 2 rounds\n0,1,2: .\n";
    print("R at limit 0 is printed", 0, &rose(), limit_0);
    let brackets = "[//CD[/*][//Bach]][//*/Bach]";
    let text = format!("1 subscriptions, 1 entries, 5 steps, 0 rounds\n0: {brackets}\n");
    let sheet = sheet_of(&ROSE_LABELS, &[brackets]);
    print("brackets are printed", 5, &sheet, text.as_bytes());
    let text = b"1 subscriptions, 1 entries, 2 steps, 1 rounds\n0: /a/b\n";
    let sheet = sheet_of(&ABC, &["/a[/b][//c]"]);
    print("a cut takes the last step", 2, &sheet, text);
    let text = b"2 subscriptions, 2 entries, 3 steps, 1 rounds\n0: /a\n1: /b/a\n";
    let sheet = sheet_of(&ABC, &["/a/b", "/b/a"]);
    print("a cut takes the first on ties", 3, &sheet, text);
    let mut sheet = label_section(&[b"\xc3\x97\n?"]);
    sheet.extend([1, 1, 0, 0, 1]);
    let text = b"1 subscriptions, 1 entries, 1 steps, 0 rounds\n0: /\xc3\x97\n?\n";
    print("a label's bytes are printed", 1, &sheet, text);
}

fn printing_of_little(list: &mut Vec<Example>) {
    for count in 0..4 {
        let input = &[0, 0, 0, 0][..count];
        add_print(list, &format!("{count} bytes"), input, b"refused 1\n");
    }
    let nothing = b"0 subscriptions, 0 entries, 0 steps, 0 rounds\n";
    add_print(list, "no subscriptions", &[0; 4], nothing);
    add_print(list, "bytes remain", &[0; 5], b"refused 2\n");
}

fn limit_examples(list: &mut Vec<Example>) {
    for (length, expected) in [(60, "0"), (61, "3")] {
        let label = vec![7u8; length];
        let mut sheet = label_section(&[&label]);
        sheet.push(0);
        let name = format!("13: a label of {length}");
        add(list, &name, question(b'S', &sheet), expected);
    }
    for (steps, expected) in [(16, "0"), (17, "5")] {
        let mut sheet = vec![0, 1, steps];
        for parent in 0..steps {
            sheet.extend([parent, 0, 0]);
        }
        let name = format!("13: {steps} steps");
        add(list, &name, question(b'S', &sheet), expected);
    }
    for (count, expected) in [(1024, "0"), (1025, "5"), (0, "5")] {
        let nodes: Vec<(u16, u8)> = (0..count).map(|parent| (parent, 1)).collect();
        let mut check = question(b'D', &rose());
        check.document = document_of(&[], &nodes);
        add(list, &format!("13: {count} nodes"), check, expected);
    }
    let mut sheet = label_section(&[b"Rosa ? alba"]);
    sheet.extend([1, 1, 0, 0, 1]);
    let mut route = question(b'P', &sheet);
    route.document = document_of(&[b"Rosa \xc3\x97 alba"], &[(0, 2)]);
    add(
        list,
        "14: no sign is replaced",
        route.clone(),
        "0 0000000000000000 0 64",
    );
    route.letter = b'L';
    route.numbers = vec![2];
    let bytes = "0 526f736120c39720616c6261";
    add(list, "14: the label's bytes", route, bytes);
}

fn byte_examples(list: &mut Vec<Example>) {
    let sheets: [(&[u8], &str); 4] = [
        (&[0x00, 0x41], "5"),
        (&[0x00, 0x01, 0x11], "5"),
        (&[0x01, 0x3d], "3"),
        (&[0, 1, 2, 0, 0, 0, 0, 0], "9"),
    ];
    for (sheet, expected) in sheets {
        let name = format!("sheet {}", crate::question::hex(sheet));
        add(list, &name, question(b'S', sheet), expected);
    }
    for (document, expected) in [(&[0, 0][..], "1"), (&[0, 0, 0], "5")] {
        let mut check = question(b'D', &[0, 0]);
        check.document = document.to_vec();
        let name = format!("document {}", crate::question::hex(document));
        add(list, &name, check, expected);
    }
    for (parents, expected) in [([0, 1, 2, 1], "0"), ([0, 1, 1, 2], "6")] {
        let mut sheet = vec![0, 1, 4];
        for parent in parents {
            sheet.extend([parent, 1, 0]);
        }
        let name = format!("parents {parents:?}");
        add(list, &name, question(b'S', &sheet), expected);
    }
}

fn misreadings(list: &mut Vec<Example>) {
    let merges = [
        ("near laid on far", ["/b/a", "/a/b/a", "[/*//a][//b/a]"]),
        ("inside forgotten", ["//a//a", "//c//a", "//*//a"]),
        ("no drops", ["/b", "[//c][//b]", "//b"]),
        ("w' outside", ["//a//b", "/b//a", "[//*//*][//a][//b]"]),
        (
            "w' tried before v'",
            ["/c[/b][//b]", "//c//c/b", "//c[/b][//b]"],
        ),
    ];
    for (name, texts) in merges {
        add_merge(list, name, &ABC, texts);
    }
    let mut sixteen = merging(&ABC, "//a/a/b//a", "/a/b/a/b");
    sixteen.room = 48;
    let as_found = format!("10 0 0 {}", "a5".repeat(48));
    add(list, "the root counted, no room", sixteen, &as_found);
    unclipped(list, "the root counted", ["//a/a/b//a", "/a/b/a/b"], 16);
    let texts = ["//b/b/b", "/b//*/a/a/b//a"];
    unclipped(list, "size tested before drops", texts, 13);
}

/// Of these merges only the number of steps is said, and that they are not clipped.
fn unclipped(list: &mut Vec<Example>, name: &str, texts: [&str; 2], steps: usize) {
    let mut merge = merging(&ABC, texts[0], texts[1]);
    merge.room = 49;
    let line = answer(&merge).line;
    let values: Vec<&str> = line.split(' ').collect();
    list.push(Example {
        name: name.to_string(),
        expected: format!("0 {} 0", 1 + 3 * steps),
        got: values[..3].join(" "),
    });
}

#[cfg(test)]
mod tests {
    #[test]
    fn every_example_holds() {
        for example in super::all() {
            assert_eq!(example.got, example.expected, "{}", example.name);
        }
    }
}
