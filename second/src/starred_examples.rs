//! A near starred leaf (labelled any, without child steps) may lie on a far child: what hangs on it, and what
//! doesn't, asked as questions.

use crate::examples::{add, add_merge, question, sheet_of, table_of, Example, ABC};
use crate::question::{hex, Question};

pub fn add_all(list: &mut Vec<Example>) {
    covered(list);
    not_covered(list);
    merged(list);
    settled(list);
    fair_or_not(list);
}

fn add_covering(list: &mut Vec<Example>, pairs: &[(&str, &str)], yes: u8) {
    for (first, second) in pairs {
        let mut covers = question(b'C', &sheet_of(&ABC, &[first, second]));
        covers.numbers = vec![0, 1];
        add(
            list,
            &format!("does {first} cover {second}"),
            covers,
            &format!("0 {yes}"),
        );
    }
}

fn covered(list: &mut Vec<Example>) {
    let pairs = [
        ("/*", "//a"),
        ("/*", "//*"),
        ("//*", "/*"),
        ("//*", "/a"),
        // On a child, whatever stands below that; and on one of several.
        ("/*", "//*/*"),
        ("/*", "//*//a"),
        ("/*", "[//a][//b]"),
        ("/a/*", "/a//b"),
        ("/a/*", "/a//b/c"),
        ("//a/*", "/b/a//c"),
        // Several leaves on one place; a leaf of its own below one that is no leaf.
        ("/a[/*][/*]", "/a//b"),
        ("/a[/*][//b]", "/a//b"),
        ("/*/*", "/a//b"),
        ("//*/*", "//a//b"),
    ];
    add_covering(list, &pairs, 1);
}

fn not_covered(list: &mut Vec<Example>) {
    let pairs = [
        // Not labelled any.
        ("/a", "//a"),
        ("/a/b", "/a//b"),
        ("/a[/*][/b]", "/a//b"),
        // Not a leaf: its first step has a child.
        ("/*/*", "//*/*"),
        ("/*/*", "//a/b"),
        ("/*//b", "//*/b"),
        ("/a/*/b", "/a//c/b"),
        // On a child, and there is none.
        ("/*", "."),
        ("//*", "."),
        ("/a/*", "/a"),
        ("/a/*", "[/a][//b/c]"),
        ("/*/*/*", "/a//b"),
    ];
    add_covering(list, &pairs, 0);
}

fn merged(list: &mut Vec<Example>) {
    let merges = [
        ("the first covers", ["/*", "//a", "/*"]),
        ("the second covers", ["//a/b", "/*", "/*"]),
        ("both cover, the first stays", ["//*", "/*", "//*"]),
        ("both cover, the other way round", ["/*", "//*", "/*"]),
        ("a kept one is dropped", ["/a", "/*/a", "//a"]),
        ("dropped for another label", ["/b", "/a/b", "//b"]),
        ("a candidate is skipped", ["[//b][/a]", "[//b][/c]", "//b"]),
        ("dropped below", ["/a/b", "/a/c/b", "[/a//b][//*/b]"]),
        (
            "no leaf, so it stays",
            ["/b/a", "/a/b/c", "[/*/*][//b/*][//a]"],
        ),
        ("v' is laid at w'", ["/c/a/*", "/b/a//b", "/*/a/*"]),
        ("w' is laid at v'", ["/b/a//b", "/c/a/*", "/*/a/*"]),
        ("axes stay as they are", ["/a", "//b", "//*"]),
        (
            "room is made",
            [
                "//a/c/b/a",
                "//c//*//a/b",
                "[//*[//*[//*/*][//b][//a]][//*/b]][//a//b][//c[//*//a][//b]]",
            ],
        ),
    ];
    for (name, texts) in merges {
        let name = format!("a starred leaf: {name}");
        add_merge(list, &name, &ABC, texts);
    }
}

/// The table that is built of the patterns for a limit, and its rounds.
fn add_build(
    list: &mut Vec<Example>,
    patterns: &[&str],
    limit: u16,
    entries: &[(u64, &str)],
    rounds: usize,
) {
    let table = table_of(&ABC, entries);
    let mut build = question(b'B', &sheet_of(&ABC, patterns));
    build.limit = limit;
    build.room = table.len() as u16;
    let name = format!("{} at limit {limit}", patterns.join(", "));
    let expected = format!("0 {} {rounds} {}", table.len(), hex(&table));
    add(list, &name, build, &expected);
}

fn settled(list: &mut Vec<Example>) {
    add_build(list, &["//a", "/*"], 9, &[(3, "/*")], 0);
    add_build(list, &["/a/*", "/a//b/c"], 9, &[(3, "/a/*")], 0);
    // Each covers the other: the first stays.
    add_build(list, &["/*", "//*"], 9, &[(3, "/*")], 0);
    add_build(list, &["//*", "/*"], 9, &[(3, "//*")], 0);
    // Its first step has a child.
    let apart = [(1, "/*/*"), (2, "//a/b")];
    add_build(list, &["/*/*", "//a/b"], 9, &apart, 0);
    // The merge has one step, so one round is enough.
    add_build(list, &["/b", "/a/b"], 1, &[(3, "//b")], 1);
}

/// One entry for all of the patterns: is that fair?
fn check(patterns: &[&str], entry: &str) -> Question {
    let all = (1 << patterns.len()) - 1;
    let mut check = question(b'T', &sheet_of(&ABC, patterns));
    check.table = table_of(&ABC, &[(all, entry)]);
    check
}

fn fair_or_not(list: &mut Vec<Example>) {
    let tables: [(&[&str], &str, &str); 6] = [
        (&["//a"], "/*", "0"),
        (&["//*/*", "/b"], "/*", "0"),
        (&["/a//b/c", "/a/c"], "/a/*", "0"),
        (&["//a"], "/a", "12"),
        (&["//*/*"], "/*/*", "12"),
        (&["//a", "."], "/*", "12"),
    ];
    for (patterns, entry, expected) in tables {
        let name = format!("one entry {entry} for {}", patterns.join(", "));
        add(list, &name, check(patterns, entry), expected);
    }
}
