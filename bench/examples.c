// The paper's examples, and those that tell easy misreadings apart.
#include "examples.h"

static const Side *side;
static unsigned asked, failed;

void expect(const char *name, bool held)
{
    asked++;
    if (held)
        return;
    failed++;
    printf("%s: the example does not hold: %s\n", side->name, name);
}

bool wrote(const Answer *answer, Part part)
{
    if (answer->length != part.length || memcmp(answer->out, part.at, part.length) != 0)
        return false;
    for (size_t i = part.length; i < OUT_ROOM; i++)
        if (answer->out[i] != AS_FOUND)
            return false;
    return true;
}

static void expect_sheet(const char *name, Part sheet, uint8_t number)
{
    expect(name, side->sheet_check(sheet.at, sheet.length) == number);
}

static void expect_plain(const char *name, Part sheet, Part document, uint8_t number, uint64_t delivered)
{
    Answer answer;
    ask_afresh(&answer, side, &(Question){PLAIN_ROUTE, .sheet = sheet, .document = document});
    expect(name, answer.number == number && answer.value == delivered);
}

static void expect_table(const char *name, Part sheet, Part table, Part document, Tabled expected)
{
    Answer answer;
    ask_afresh(&answer, side, &(Question){TABLE_ROUTE, .sheet = sheet, .table = table, .document = document});
    expect(name, answer.number == expected.number && answer.value == expected.delivered && answer.count == expected.tried);
}

static void expect_wanted(const char *name, Part sheet, Part table, Part document, Asked expected)
{
    Answer answer;
    ask_afresh(&answer, side, &(Question){WANTED, .sheet = sheet, .table = table, .document = document});
    expect(name, answer.number == expected.number && answer.value == expected.said);
}

// Both calls that take a table refuse alike.
static void expect_refused(const char *name, Part sheet, Part table, Part document, uint8_t number)
{
    expect_table(name, sheet, table, document, (Tabled){number, 0, 0});
    expect_wanted(name, sheet, table, document, (Asked){number, false});
}

// Does the first pattern cover the second?
static void expect_covers(const char *labels, const char *patterns, bool yes)
{
    Answer answer;
    ask_afresh(&answer, side, &(Question){COVERS, .sheet = sheet_of(labels, patterns), .i = 0, .j = 1});
    expect(patterns, answer.number == 0 && answer.value == yes);
}

// The merge of the first pattern with the second, not clipped.
static void expect_merge(const char *labels, const char *patterns, const char *merged)
{
    Answer answer;
    ask_afresh(&answer, side, &(Question){MERGE, .sheet = sheet_of(labels, patterns), .i = 0, .j = 1});
    expect(patterns, answer.number == 0 && answer.value == 0 && wrote(&answer, pattern_of(labels, merged)));
}

// The steps and the mark of that merge.
static void expect_merge_size(const char *labels, const char *patterns, unsigned steps, bool clipped)
{
    Answer answer;
    ask_afresh(&answer, side, &(Question){MERGE, .sheet = sheet_of(labels, patterns), .i = 0, .j = 1});
    expect(patterns, answer.number == 0 && answer.out[0] == steps && answer.value == clipped);
}

static void expect_build(const char *name, Part sheet, uint16_t limit, Part table, unsigned rounds)
{
    Answer answer;
    ask_afresh(&answer, side, &(Question){BUILD, .sheet = sheet, .limit = limit});
    expect(name, answer.number == 0 && answer.count == rounds && wrote(&answer, table));
}

// ---- the rose bench

static const char rose_labels[] = "CD SONY Bach";
static const char rose_patterns[] = "/CD[/SONY][/*/Bach] //CD/Bach /CD";

static Part rose_document(void)
{
    return document_of("composer", "0 1 1 2 1 4 3 3");
}

static void rose_routes(Part rose)
{
    Part patterns = bytes_of("03 04 00 00 01 01 00 02 01 00 00 03 00 03 02 00 01 01 01 00 03 01 00 00 01");
    Part end = {rose.at + rose.length - patterns.length, patterns.length};
    expect("R has the paper's bytes", memcmp(end.at, patterns.at, end.length) == 0);
    expect_sheet("R passes", rose, 0);
    expect_plain("1: the plain route of D1", rose, rose_document(), 0, 5);
    expect_plain("2: one node SONY", rose, document_of("", "0 2"), 0, 0);
    Part table = table_of(rose_labels, "2 //CD/Bach 5 /CD");
    expect_table("12: D1 by the table of limit 3", rose, table, rose_document(), (Tabled){0, 5, 4});
}

static void rose_covers(void)
{
    expect_covers(rose_labels, "/CD /CD[/SONY][/*/Bach]", true);
    expect_covers(rose_labels, "/CD[/SONY][/*/Bach] /CD", false);
    expect_covers(rose_labels, "//CD/Bach /CD[/SONY][/*/Bach]", false);
    expect_covers(rose_labels, "//Bach /CD[/SONY][/*/Bach]", true);
    expect_covers(rose_labels, "//Bach //CD/Bach", true);
    expect_covers(rose_labels, ". /CD[/SONY][/*/Bach]", true);
    expect_covers(rose_labels, "//* .", false);
    expect_covers(rose_labels, "/* //CD", true);
    expect_covers("b", "/*//b //*/b", false);
    expect_covers("b", "//*/b /*//b", false);
}

static void rose_merges_and_builds(Part rose)
{
    expect_merge("a b c", "/a/b /a/c", "/a/*");
    expect_merge(rose_labels, "/CD[/SONY][/*/Bach] //CD/Bach", "[//CD//Bach][//*/Bach]");
    expect_build("10: R at limit 3", rose, 3, table_of(rose_labels, "2 //CD/Bach 5 /CD"), 0);
    expect_build("11: R at limit 2", rose, 2, table_of(rose_labels, "7 //CD"), 1);
    expect_build("11: R at limit 0", rose, 0, table_of(rose_labels, "7 ."), 2);
}

// ---- limits

// A sheet with one label of so many bytes, and no pattern.
static Part long_label(unsigned length)
{
    begin_part();
    put(1);
    put(length);
    for (unsigned i = 0; i < length; i++)
        put('a');
    put(0);
    return end_part();
}

// A sheet with no label, and one pattern, a chain of so many steps.
static Part long_pattern(unsigned steps)
{
    begin_part();
    put(0);
    put(1);
    put(steps);
    for (unsigned k = 0; k < steps; k++) {
        put(k);
        put(0);
        put(0);
    }
    return end_part();
}

// A document with one label, and so many nodes in a chain.
static Part long_document(unsigned nodes)
{
    begin_part();
    put(1);
    put(1);
    put('x');
    put_two(nodes);
    for (unsigned u = 0; u < nodes; u++) {
        put_two(u);
        put(1);
    }
    return end_part();
}

// A sheet of 255 labels and no pattern.
static Part all_labels(void)
{
    begin_part();
    put(255);
    for (unsigned i = 0; i < 255; i++) {
        put(2);
        put('a' + i / 16);
        put('a' + i % 16);
    }
    put(0);
    return end_part();
}

static void limits(void)
{
    Part empty = sheet_of("", "");
    expect_sheet("13: a label of 60 bytes", long_label(60), 0);
    expect_sheet("13: a label of 61 bytes", long_label(61), 3);
    expect_sheet("13: 16 steps", long_pattern(16), 0);
    expect_sheet("13: 17 steps", long_pattern(17), 5);
    expect_plain("13: 1,024 nodes", empty, long_document(1024), 0, 0);
    expect_plain("13: 1,025 nodes", empty, long_document(1025), 5, 0);
    expect_plain("13: 0 nodes", empty, long_document(0), 5, 0);
    expect_plain("S + D over 255, at the byte of D", all_labels(), bytes_of("01"), 5, 0);
    expect_plain("255 labels, and a document of them", all_labels(), bytes_of("00 01 00 00 00 ff"), 0, 0);
    Part hybrid = bytes_of("01 0b 52 6f 73 61 20 3f 20 61 6c 62 61 02 01 00 01 01 01 00 01 00");
    Part notice = bytes_of("01 0c 52 6f 73 61 20 c3 97 20 61 6c 62 61 01 00 00 00 02");
    expect_plain("14: a label is its bytes", hybrid, notice, 0, 2);
}

// ---- numbers

static void sheet_numbers(void)
{
    expect_sheet("no bytes", bytes_of(""), 1);
    expect_sheet("no count of patterns", bytes_of("00"), 1);
    expect_sheet("65 patterns", bytes_of("00 41"), 5);
    expect_sheet("17 steps, and no step", bytes_of("00 01 11"), 5);
    expect_sheet("61 bytes, and none of them", bytes_of("01 3d"), 3);
    expect_sheet("a label of no bytes", bytes_of("01 00"), 3);
    expect_sheet("a label cut short", bytes_of("02 01 41 02 41"), 1);
    expect_sheet("a label twice", bytes_of("02 01 41 01 41"), 4);
    expect_sheet("bytes remain", bytes_of("00 00 00"), 2);
    expect_sheet("parents 0 1 2 1", bytes_of("00 01 04 00 00 00 01 00 00 02 00 00 01 00 00"), 0);
    expect_sheet("parents 0 1 1 2", bytes_of("00 01 04 00 00 00 01 00 00 01 00 00 02 00 00"), 6);
    expect_sheet("the first parent is 1", bytes_of("00 01 01 01"), 6);
    expect_sheet("axis 2", bytes_of("00 01 01 00 02"), 7);
    expect_sheet("a second near root step", bytes_of("00 01 02 00 00 00 00 00"), 9);
    expect_sheet("axis 2 comes before it", bytes_of("00 01 02 00 00 00 00 02"), 7);
    expect_sheet("a far root step beside it", bytes_of("00 01 02 00 00 00 00 01 00"), 0);
    expect_sheet("a label outside the sheet", bytes_of("00 01 01 00 00 01"), 8);
}

static void document_numbers(void)
{
    Part empty = sheet_of("", ""), one = sheet_of("A", "");
    expect_plain("half a node count", empty, bytes_of("00 00"), 1, 0);
    expect_plain("a node count of 0", empty, bytes_of("00 00 00"), 5, 0);
    expect_plain("the sheet's label again", one, bytes_of("01 01 41"), 4, 0);
    expect_plain("a node without label", one, bytes_of("00 01 00 00 00 00"), 8, 0);
    expect_plain("node 1 below a node", one, bytes_of("00 01 00 01 00"), 6, 0);
    expect_plain("node 2 below the top", one, bytes_of("00 02 00 00 00 01 00 00"), 6, 0);
    expect_plain("node 2 below itself", one, bytes_of("00 02 00 00 00 01 02 00"), 6, 0);
    expect_plain("bytes remain", one, bytes_of("00 01 00 00 00 01 00"), 2, 0);
    expect_plain("the sheet comes first", bytes_of("00 41"), bytes_of("00 00 00"), 5, 0);
}

static void table_numbers(Part rose)
{
    Part document = rose_document(), bad = bytes_of("00 00 00"), all = table_of(rose_labels, "7 .");
    Part longer = bytes_of("01 07 00 00 00 00 00 00 00 01 00 00 01 00");
    expect_refused("/CD for all", rose, table_of(rose_labels, "7 /CD"), document, 12);
    expect_refused("/CD for all, and a byte more", rose, longer, document, 2);
    expect_refused("12 before the document", rose, table_of(rose_labels, "7 /CD"), bad, 12);
    expect_refused("the document after", rose, all, bad, 5);
    expect_refused("to the document's end", rose, all, bytes_of("00 01 00 00 00 01 00"), 2);
    expect_refused("the sheet before the table", bytes_of("00 41"), bytes_of(""), document, 5);
    expect_refused("a subscription missing", rose, table_of(rose_labels, "3 ."), document, 12);
    expect_refused("a subscription twice", rose, table_of(rose_labels, "7 . 1 ."), document, 12);
    expect_refused("a member outside the sheet", rose, table_of(rose_labels, "15 ."), document, 12);
    expect_refused("an entry without members", rose, table_of(rose_labels, "7 . 0 ."), document, 12);
    expect_refused("half of the members", rose, bytes_of("01 07 00 00 00"), document, 1);
    expect_refused("65 entries", rose, bytes_of("41"), document, 5);
}

static void asked_for(Part rose)
{
    Answer answer;
    ask_afresh(&answer, side, &(Question){COVERS, .sheet = rose, .i = 3, .j = 0});
    expect("covers: a subscription that isn't there", answer.number == 11 && answer.value == 0);
    ask_afresh(&answer, side, &(Question){MERGE, .sheet = rose, .i = 0, .j = (uint64_t)1 << 32});
    expect("merge: a subscription that isn't there", answer.number == 11 && wrote(&answer, (Part){rose.at, 0}));
    uint8_t small[] = {7, 8, 9};
    Merged merged = side->merge(rose.at, rose.length, 2, 0, small, 3);
    expect("merge: too little room", merged.number == 10 && !merged.clipped && merged.length == 0);
    Built built = side->build(rose.at, rose.length, 3, small, 3);
    expect("build: too little room", built.number == 10 && built.rounds == 0 && built.length == 0);
    expect("too little room, and the bytes as found", small[0] == 7 && small[1] == 8 && small[2] == 9);
}

// ---- is it wanted

static void wanted_or_not(Part rose)
{
    Part two = table_of(rose_labels, "2 //CD/Bach 5 /CD"), one = table_of(rose_labels, "7 //CD");
    Part below_sony = document_of("", "0 2 1 1");
    Asked yes = {0, true}, no = {0, false};
    expect_wanted("D1 by the table of limit 3", rose, two, rose_document(), yes);
    expect_wanted("D1 by the table of limit 2", rose, one, rose_document(), yes);
    expect_wanted("no entry matches", rose, two, document_of("", "0 2"), no);
    expect_table("an entry matches, and no member: 4 tried", rose, one, below_sony, (Tabled){0, 0, 4});
    expect_wanted("an entry alone decides nothing", rose, one, below_sony, no);
    Part sheet = sheet_of("a b c d", "/a/b /a/c //d"), table = table_of("a b c d", "3 /a/* 4 //d");
    expect_wanted("the entry's last member", sheet, table, document_of("", "0 1 1 3"), yes);
    expect_wanted("after an entry alone, a member of the next", sheet, table, document_of("", "0 1 1 4"), yes);
    expect_wanted("a sheet without subscriptions", sheet_of("", ""), table_of("", ""), document_of("x", "0 1"), no);
}

// ---- a near step labelled any, without child steps, lies on any child

static void starred_leaf_covers(void)
{
    expect_covers("a b c", "/* //*/*", true);
    expect_covers("a b c", "/*/* //*/*", false);
    expect_covers("a b c", "/a //a", false);
    expect_covers("a b c", "/* .", false);
    expect_covers("a b c", "/a/* /a", false);
    expect_covers("a b c", "/a/* /a//b/c", true);
    expect_covers("a b c", "/a[/*][//b] /a//b", true);
    expect_covers("a b c", "/a[/*][/b] /a//b", false);
    expect_covers("a b c", "[/a/*][//b] [/a][//b]", false);
}

static void starred_leaf_merges(void)
{
    expect_merge("a b c", "/* //a", "/*");
    expect_merge("a b c", "//a /*", "/*");
    expect_merge("a b c", "/a //b", "//*");
    expect_merge("a b c", "/a /*/a", "//a");
    expect_merge("a b c", "[//b][/a] [//b][/c]", "//b");
    expect_merge("a b c", "[//a/*][//b] //a//c", "//a/*");
    expect_merge("a b c", "/a/c/c/a/b //c[/b/b][/c/a]", "[//c[/*//b][/c/a][//*/b]][//c[/*/b][//a]]");
}

static void starred_leaf_tables(void)
{
    Part one = sheet_of("a b", "/a//b"), two = sheet_of("a b", "/a//b /a/*"), document = document_of("", "0 1 1 2");
    expect_build("settled by a starred leaf", two, 3, table_of("a b", "3 /a/*"), 0);
    expect_build("a round that drops a starred leaf", sheet_of("a", "/a /*/a"), 2, table_of("a", "3 //a"), 1);
    expect_table("a starred leaf for a far step is fair", one, table_of("a b", "1 /a/*"), document, (Tabled){0, 1, 2});
    expect_refused("a near b for a far one is not", one, table_of("a b", "1 /a/b"), document, 12);
}

// ---- what an easy misreading would get wrong

static void told_apart(void)
{
    expect_plain("//a finds the root node", sheet_of("a", "//a"), document_of("", "0 1"), 0, 1);
    expect_plain("far is strictly below", sheet_of("a", "/a//a"), document_of("", "0 1"), 0, 0);
    expect_plain("two steps on one node", sheet_of("a b", "/a[/b][/*]"), document_of("", "0 1 1 2"), 0, 1);
    expect_plain("near and far", sheet_of("a b c", "/a/c /a//c"), document_of("", "0 1 1 2 2 3"), 0, 2);
    expect_plain("nodes in no preorder", sheet_of("a b c", "/a[/b/c][/c]"), document_of("", "0 1 1 2 1 3 2 3"), 0, 1);
    expect_merge("a b c", "/b /a/b", "//b");
    expect_merge("a b c", "//a//a //c//a", "//*//a");
    expect_merge("a b c", "/b [//c][//b]", "//b");
    expect_merge("a b c", "//a//b /b//a", "[//*//*][//a][//b]");
    expect_merge("a b c", "/c[/b][//b] //c//c/b", "//c[/b][//b]");
    expect_merge("a b c", "/a/a/b/b //a/a/a/a/b", "[//a[/a/*/b][//a/b]][//a/a/b]");
    expect_merge_size("a b c", "//a/a/b//a /a/b/a/b", 16, false);
    Part three = sheet_of("a b c d", "/a/b /a/c //d");
    expect_build("three at limit 3", three, 3, table_of("a b c d", "3 /a/* 4 //d"), 1);
    expect_build("three at limit 0", three, 0, table_of("a b c d", "7 ."), 3);
    expect_build("a cut, the last step", sheet_of("a b c", "/a[/b][//c]"), 2, table_of("a b c", "1 /a/b"), 1);
    expect_build("a cut, the first on ties", sheet_of("a b", "/a/b /b/a"), 3, table_of("a b", "1 /a 2 /b/a"), 1);
    Part table = table_of("a b c", "5 //a 2 //c");
    expect_table("tries", sheet_of("a b c", "/a /c /a/b"), table, document_of("", "0 1 1 2"), (Tabled){0, 5, 4});
}

unsigned failed_examples(const Side *of, unsigned *count)
{
    side = of;
    asked = failed = 0;
    Part rose = sheet_of(rose_labels, rose_patterns);
    rose_routes(rose);
    rose_covers();
    rose_merges_and_builds(rose);
    limits();
    sheet_numbers();
    document_numbers();
    table_numbers(rose);
    asked_for(rose);
    wanted_or_not(rose);
    starred_leaf_covers();
    starred_leaf_merges();
    starred_leaf_tables();
    told_apart();
    ask_line_examples(of);
    *count = asked;
    return failed;
}
