#!/usr/bin/env python3
"""Counts the places of docs/DESIGN-PASS.md in the sources: tools/places.py [-v] [FOLDER]. With -v each place is listed."""
import collections, glob, os, re, sys

args = [a for a in sys.argv[1:] if a != "-v"]
verbose = "-v" in sys.argv
root = args[0] if args else os.path.join(os.path.dirname(os.path.abspath(__file__)), "..")
files = sorted(glob.glob(os.path.join(root, "crates/*/src/*.rt")))
text = {os.path.relpath(f, root): re.sub(r"//[^\n]*", "", open(f, encoding="utf-8").read()) for f in files}

# The functions: file, name, clauses and parameters as written, body.
HEAD = re.compile(r"(?m)^ *(?:pub )?(?:extern \"C\" )?fn (\w+)(?:<[^>]*>)?\(")


def functions():
    for f, s in text.items():
        for m in HEAD.finditer(s):
            depth, j = 1, m.end()
            while depth:
                depth += {"(": 1, ")": -1}.get(s[j], 0)
                j += 1
            # the body begins at a brace alone, or at that behind the result, and ends at one as far in as the head
            body = re.compile(r"(?m)^ *\{\n|\{\n").search(s, j - 1)
            inner = len(re.match(r" *", m.group(0)).group(0))
            end = re.compile(r"(?m)^ {%d}\}" % inner).search(s, body.end())
            yield f, m.group(1), s[m.end() : j - 1], s[j : body.start()], s[body.end() : end.start()]


FUNCTIONS = list(functions())


def lines(pattern):
    return ["%s: %s" % (f, l.strip()) for f, s in text.items() for l in s.split("\n") if re.search(pattern, l)]


def twins():
    # bodies that are the same but for names, numbers and types
    groups = collections.defaultdict(list)
    for f, name, _, _, body in FUNCTIONS:
        tokens = re.findall(r"[A-Za-z_]\w*|\d+|\S", body)
        key = " ".join("k" if t in KEYWORDS else "i" if re.match(r"[A-Za-z_]", t) else "n" if t.isdigit() else t for t in tokens)
        if len(tokens) >= 12:
            groups[key].append("%s: %s" % (f, name))
    return ["; ".join(g) for g in groups.values() if len(g) > 1]


KEYWORDS = set("let mut if else while for in match return as self loop break true false".split())


def together(pattern):
    return ["%s: %s" % (f, n) for f, n, params, _, _ in FUNCTIONS if re.search(pattern, re.sub(r"\s+", " ", params))]


def facts():
    count = collections.Counter()
    for _, _, _, clauses, _ in FUNCTIONS:
        for r in re.findall(r"requires \{(.*?)\}\n", clauses, re.S):
            for fact in set(re.findall(r"\b(WellFormed|WellFormedTable|NodesStand|SubscriptionsStand|EntriesStand|SheetStands|MembersStand|Known|Noted|Rising)\b", r)):
                count[fact] += 1
    return ["%s: %d functions" % x for x in count.most_common() if x[1] >= 3]


POINTS = [
    ("1 enums of its own like Option or Result", lines(r"^\s*(pub )?enum (First|Long|Short|Cur|Asked|Merged|Built|Lined|Output|Routed|Tabled|Sought)\b")),
    ("1 all enums", lines(r"^\s*(pub )?enum ")),
    ("1 numbers for refusals", lines(r"^pub const [A-Z_]+: u8")),
    ("1 functions that give a number for a kind, a check or a refusal", [x for x in lines(r"fn (known_at|weigh|\w*_number|sheet_check|document_check|table_check|hub_sheet_check|\w+_of)\(.*-> u8")]),
    ("1 flags with a value beside, and numbers that stand for none", lines(r"pub (sound|whole): bool|found: Best|fn first_covered\(.*-> usize|fn write_(pattern|table)\(.*-> bool|notes: &mut \[u8|there: &mut \[u8|back: &mut \[u8|fn number_of")),
    ("2 bodies that are the same but for names, numbers and types", twins()),
    ("2 structs of a count and places", lines(r"places: \[usize; ")),
    ("3 loops by hand", lines(r"^\s*(while|loop)\b")),
    ("3 for", lines(r"^\s*for ")),
    ("3 chains and methods of slices", [x for x in lines(r"\.iter\(\)|\.filter\(|copy_from_slice|copy_within") if ": for " not in x]),
    ("4 bytes put together or taken apart by hand", [x for x in lines(r"/ 256|% 256|256 \*|65536|16777216|4294967296") if "requires" not in x and "ensures" not in x]),
    ("4 equality, digits, yes or no as a number, both, either by hand", lines(r"if a\[i\] != b\[i\]|48 \+|87 \+|b'0' \+|b'a' \+|\{ 1 \} else \{ 0 \}|\{ 0 \} else \{ 1 \}|fn both\(|fn either\(")),
    ("5 functions that take nodes as bytes, place and count", together(r"d: &\[u8\], at: usize, n: usize")),
    ("5 functions that take a count and places", together(r"count: usize, (entry_)?places: ")),
    ("5 functions that take the masks one by one", together(r"children: &")),
    ("5 functions that take memo, there and back", together(r"there: &mut .*, back: &mut")),
    ("5 functions that take an output and a place in it", together(r"out: &mut \[u8\], at: usize")),
    ("5 facts in the requires of three functions or more", facts()),
    ("6 arrays with a count beside them", lines(r"pub (steps|entries|places): \[")),
    ("7 a letter or a mode that says what to run", lines(r"match (l|mode) \{|if l == b'")),
]

if __name__ == "__main__":
    for name, found in POINTS:
        print("%4d  %s" % (len(found), name))
        if verbose:
            for x in found:
                print("        " + x)
