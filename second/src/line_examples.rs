//! Lines (#102) that are read, refused with their place, or written, asked as questions.

use crate::examples::{add, label_section, question, sheet_of, Example};
use crate::examples::{ABC, ROSE_LABELS, ROSE_PATTERNS};
use crate::notation::pattern;
use crate::question::{hex, Question};
use crate::trees::written;

pub fn add_all(list: &mut Vec<Example>) {
    places(list);
    forms(list);
    odd_bytes(list);
    order_of_refusals(list);
    lengths(list);
    written_lines(list);
    not_written(list);
}

fn reading(sheet: &[u8], line: &[u8], room: u16) -> Question {
    let mut read = question(b'N', sheet);
    read.line = line.to_vec();
    read.room = room;
    read
}

fn add_refused(list: &mut Vec<Example>, sheet: &[u8], line: &[u8], number: u8, place: usize) {
    let name = match line.len() {
        0..=80 => format!("the line {}", line.escape_ascii()),
        length => format!("a line of {length} bytes"),
    };
    let expected = format!("{number} {place} 0 a5a5");
    add(list, &name, reading(sheet, line, 2), &expected);
}

/// The line means what the text of document 01's form means.
fn add_read(list: &mut Vec<Example>, labels: &[&str], line: &str, text: &str) {
    let bytes = written(&pattern(text, labels));
    let room = bytes.len() as u16 + 1;
    let expected = format!("0 0 {} {}a5", bytes.len(), hex(&bytes));
    let read = reading(&sheet_of(labels, &[]), line.as_bytes(), room);
    add(list, &format!("{line} is {text}"), read.clone(), &expected);
    let less = Question {
        room: room - 2,
        ..read
    };
    let expected = format!("10 0 0 {}", hex(&vec![0xa5; bytes.len() - 1]));
    add(list, &format!("{line}, no room"), less, &expected);
}

fn places(list: &mut Vec<Example>) {
    let lines: [(&[u8], usize); 24] = [
        (b"", 0),
        (b"a", 0),
        (b".//a", 1),
        (b"[./a]", 3),
        (b"//", 2),
        (b"///a", 2),
        (b"/a\n", 2),
        (b"[[a]]", 1),
        (b"[.]", 2),
        (b"[a", 2),
        (b"[a]]", 3),
        (b"[a].//b", 3),
        (b"/*a", 2),
        (b"/a*", 2),
        (b"/a.b", 2),
        (b"/a/[b]", 3),
        // Two dots; a dot below; branches behind one without brackets; a line feed in front.
        (b"..", 1),
        (b"/a/.", 3),
        (b"/a]", 2),
        (b"[a]b", 3),
        (b"[.//a", 5),
        (b"[.///a]", 4),
        (b"/**", 2),
        (b"\n.", 0),
    ];
    for (line, place) in lines {
        add_refused(list, &sheet_of(&ABC, &[]), line, 13, place);
    }
}

fn forms(list: &mut Vec<Example>) {
    let lines = [
        (".", "."),
        ("/a", "/a"),
        ("[/a]", "/a"),
        ("[a]", "/a"),
        ("[.//a]", "//a"),
        ("[*]", "/*"),
        ("[.//*]", "//*"),
        ("/a[b]", "/a/b"),
        ("/a[.//b]", "/a//b"),
        ("/a[/b]/c", "/a[/b][/c]"),
        ("/a[b][.//c]//*", "/a[/b][//c][//*]"),
        ("[//a]/b", "[//a][/b]"),
        ("[a[b[c]]]", "/a/b/c"),
        ("[a/b]//c", "[/a/b][//c]"),
        ("[.//a[*][.//b]/c][//b]/*", "[//a[/*][//b][/c]][//b][/*]"),
    ];
    for (line, text) in lines {
        add_read(list, &ABC, line, text);
    }
    for text in ROSE_PATTERNS {
        add_read(list, &ROSE_LABELS, text, text);
    }
    let short = "[CD[SONY]/*[Bach]]";
    add_read(list, &ROSE_LABELS, short, ROSE_PATTERNS[0]);
}

/// Nothing is skipped, and a label is the whole stretch of its bytes.
fn odd_bytes(list: &mut Vec<Example>) {
    let labels = ["a ", " a", "a\r", "\0", "×", "a", "\""];
    for label in labels {
        let line = format!("//{label}");
        add_read(list, &labels, &line, &line);
    }
    let sheet = sheet_of(&["a", "*", "b.c"], &[]);
    for line in [&b"/a "[..], b"/ a", b"/a\r", b"/A", b"/aa", b"/b"] {
        add_refused(list, &sheet, line, 14, 0);
    }
    // A label of the sheet that holds a barred byte is not readable: * is any, and a point is a fault.
    add_read(list, &["a", "*"], "/*", "/*");
    add_refused(list, &sheet, b"/b.c", 13, 2);
}

fn order_of_refusals(list: &mut Vec<Example>) {
    let sheet = sheet_of(&ABC, &[]);
    add_refused(list, &sheet[..2], b"/", 1, 0);
    add_refused(list, &sheet, b"/x]", 13, 2);
    add_refused(list, &sheet, b"[a][b]", 9, 0);
    add_refused(list, &sheet, b"[a]/*", 9, 0);
    add_refused(list, &sheet, b"[a][x]", 14, 0);
    let seventeen = b"/a".repeat(17);
    add_refused(list, &sheet, &seventeen, 5, 0);
    let near_too = [b"[b]", &seventeen[..]].concat();
    add_refused(list, &sheet, &near_too, 5, 0);
    let unknown_behind = [&seventeen[..], b"/x"].concat();
    add_refused(list, &sheet, &unknown_behind, 14, 0);
    let fault_behind = [&seventeen[..], b"/x/"].concat();
    add_refused(list, &sheet, &fault_behind, 13, 37);
    let deep = [b"[a".repeat(200), b"]".repeat(200)].concat();
    add_refused(list, &sheet, &deep, 5, 0);
    add_refused(list, &sheet, &deep[..599], 13, 599);
}

/// 16 branches of 64 bytes are read; one byte more is too long, and a fault counts only before 1,024.
fn lengths(list: &mut Vec<Example>) {
    let label = "x".repeat(60);
    let sheet = sheet_of(&[&label], &[]);
    let longest = format!("[//{label}]").repeat(16);
    add_read(list, &[&label], &longest, &longest);
    let short = longest.replacen("[//", "[.//", 1);
    add_refused(list, &sheet, short.as_bytes(), 13, 1_024);
    let unknown = |length: usize| [b"/".to_vec(), vec![b'a'; length - 1]].concat();
    add_refused(list, &sheet, &unknown(1_024), 14, 0);
    add_refused(list, &sheet, &unknown(1_025), 13, 1_024);
    add_refused(list, &sheet, &unknown(62), 14, 0);
    for fault in [1_022, 1_023, 1_024, 1_025] {
        let mut line = unknown(1_030);
        line[fault] = b'*';
        add_refused(list, &sheet, &line, 13, fault.min(1_024));
    }
    for length in [1_022, 1_023, 1_024, 1_025, 1_026] {
        let mut line = unknown(length);
        line[0] = b'[';
        add_refused(list, &sheet, &line, 13, length.min(1_024));
    }
}

fn add_written(list: &mut Vec<Example>, labels: &[&str], text: &str) {
    let mut write = question(b'V', &sheet_of(labels, &[]));
    write.pattern = written(&pattern(text, labels));
    write.room = text.len() as u16 + 1;
    let expected = format!("0 {} {}a5", text.len(), hex(text.as_bytes()));
    add(list, &format!("{text} is written"), write, &expected);
    let mut subscription = question(b'U', &sheet_of(labels, &[".", text]));
    subscription.numbers = vec![1];
    subscription.room = text.len() as u16;
    let expected = format!("0 {} {}", text.len(), hex(text.as_bytes()));
    let name = format!("the subscription {text} is written");
    add(list, &name, subscription.clone(), &expected);
    subscription.room -= 1;
    let expected = format!("10 0 {}", hex(&vec![0xa5; text.len() - 1]));
    add(list, &format!("{name}, no room"), subscription, &expected);
}

fn written_lines(list: &mut Vec<Example>) {
    for text in ROSE_PATTERNS {
        add_written(list, &ROSE_LABELS, text);
    }
    for text in [".", "/*", "[//a][/b]", "/a[/b[/c][//*]][//c]"] {
        add_written(list, &ABC, text);
    }
    let label = "x".repeat(60);
    add_written(list, &[&label], &format!("[//{label}]").repeat(16));
}

/// 15 only where the pattern uses the label, after the pattern's own numbers and before 10.
fn not_written(list: &mut Vec<Example>) {
    for barred in ["/", "*", "[", "]", ".", "\n", "a.b", "ab\n"] {
        let mut sheet = label_section(&[b"a", barred.as_bytes()]);
        sheet.extend([2, 1, 0, 0, 1, 2, 0, 0, 1, 1, 0, 2]);
        let mut beside = question(b'U', &sheet);
        beside.numbers = vec![0];
        beside.room = 2;
        let name = format!("beside the label {}", barred.escape_debug());
        add(list, &name, beside.clone(), "0 2 2f61");
        beside.numbers = vec![1];
        beside.room = 0;
        let name = format!("with the label {}", barred.escape_debug());
        add(list, &name, beside.clone(), "15 0 -");
        beside.numbers = vec![2];
        add(list, &format!("{name}, not asked for"), beside, "11 0 -");
        let mut pattern = question(b'V', &sheet);
        pattern.pattern = vec![2, 0, 0, 2, 0, 0];
        add(list, &format!("{name}, a second near"), pattern, "9 0 -");
    }
}
