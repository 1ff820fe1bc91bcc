// The examples of lines: what the short forms mean, where a line is off, the limits, and the order of refusals.
#include "examples.h"

static const Side *side;
static const char labels[] = "a b c";

static Part text_of(const char *text)
{
    return (Part){(const uint8_t *)text, strlen(text)};
}

// So many times a text, and another one behind it.
static Part repeated(unsigned times, const char *text, const char *behind)
{
    begin_part();
    for (; times > 0; times--)
        for (size_t i = 0; i < strlen(text); i++)
            put((uint8_t)text[i]);
    for (size_t i = 0; i < strlen(behind); i++)
        put((uint8_t)behind[i]);
    return end_part();
}

// The answer to one question has this number and place, and the part is what is written, and all that is.
static void expect_answer(const char *name, Question question, uint8_t number, uint64_t place, Part written)
{
    Answer answer;
    ask_afresh(&answer, side, &question);
    expect(name, answer.number == number && answer.value == place && wrote(&answer, written));
}

static void expect_refusal(const char *name, Question question, uint8_t number)
{
    expect_answer(name, question, number, 0, text_of(""));
}

// The line reads as this pattern, which stands in the paper's notation.
static void expect_read(const char *line, const char *pattern)
{
    Question question = {READ_LINE, .sheet = sheet_of(labels, ""), .line = text_of(line)};
    expect_answer(line, question, 0, 0, pattern_of(labels, pattern));
}

static void expect_off(const char *line, uint64_t place)
{
    Question question = {READ_LINE, .sheet = sheet_of(labels, ""), .line = text_of(line)};
    expect_answer(line, question, 13, place, text_of(""));
}

// Each pattern is written so, as a subscription and by its bytes, and this reads as the same bytes.
static void expect_written(const char *line)
{
    Part sheet = sheet_of(labels, line), pattern = pattern_of(labels, line);
    expect_answer(line, (Question){WRITE_SUBSCRIPTION, .sheet = sheet}, 0, 0, text_of(line));
    expect_answer(line, (Question){WRITE_PATTERN, .sheet = sheet, .pattern = pattern}, 0, 0, text_of(line));
    expect_answer(line, (Question){READ_LINE, .sheet = sheet, .line = text_of(line)}, 0, 0, pattern);
}

// ---- what is read, and what is written

static void read_and_written(void)
{
    expect_written(".");
    expect_written("/a");
    expect_written("//*");
    expect_written("/a//b/c");
    expect_written("[/a][//b]");
    expect_written("/a[/b][/*/c]");
    expect_written("[//a[/*][//b]][//*/b]");
    expect_written("//a[/b[//c][/c]][/b]");
    expect_read("[/a]", "/a");
    expect_read("/a[/b]/c", "/a[/b][/c]");
    expect_read("[a]", "/a");
    expect_read("[*]", "/*");
    expect_read("[.//a]", "//a");
    expect_read("[.//*]", "//*");
    expect_read("[.//a[b][.//c]]//b", "[//a[/b][//c]][//b]");
    expect_read("/a[b[.//c][c]]", "/a/b[//c][/c]");
}

// Spaces, carriage returns and zero bytes are bytes of labels like others.
static void nothing_is_skipped(void)
{
    Part sheet = bytes_of("03 01 20 01 0d 02 00 61 00");
    Part line = bytes_of("2f 20 2f 2f 0d 2f 00 61");
    Part pattern = bytes_of("03 00 00 01 01 01 02 02 00 03");
    expect_answer("odd labels are read", (Question){READ_LINE, .sheet = sheet, .line = line}, 0, 0, pattern);
    expect_answer("and written", (Question){WRITE_PATTERN, .sheet = sheet, .pattern = pattern}, 0, 0, line);
}

// ---- where a line is off

static void places(void)
{
    expect_off("", 0);
    expect_off("a", 0);
    expect_off(".//a", 1);
    expect_off("[./a]", 3);
    expect_off("//", 2);
    expect_off("///a", 2);
    expect_off("/a\n", 2);
    expect_off("[[a]]", 1);
    expect_off("[.]", 2);
    expect_off("[a", 2);
    expect_off("[a]]", 3);
    expect_off("[a].//b", 3);
    expect_off("/*a", 2);
    expect_off("/a*", 2);
    expect_off("/a.b", 2);
    expect_off("/a/[b]", 3);
    expect_off("/a[b[.//c]c]", 10);
    expect_off("..", 1);
    expect_off("/x[", 3);
    expect_off("]", 0);
}

// ---- limits

// A sheet with one label of 60 bytes.
static Part long_label(void)
{
    begin_part();
    put(1);
    put(60);
    for (unsigned i = 0; i < 60; i++)
        put('a');
    put(0);
    return end_part();
}

// A branch of 64 bytes, with a label of 60.
#define TEN "aaaaaaaaaa"
#define LONG_BRANCH "[//" TEN TEN TEN TEN TEN TEN "]"

static void expect_long(const char *name, Part line, uint8_t number, uint64_t place)
{
    expect_answer(name, (Question){READ_LINE, .sheet = long_label(), .line = line}, number, place, text_of(""));
}

static void longest_lines(void)
{
    Part line = repeated(16, LONG_BRANCH, "");
    begin_part();
    put(16);
    for (unsigned k = 0; k < 16; k++) {
        put(0);
        put(1);
        put(1);
    }
    Part pattern = end_part();
    expect_answer("1,024 bytes", (Question){READ_LINE, .sheet = long_label(), .line = line}, 0, 0, pattern);
    expect_answer("are written", (Question){WRITE_PATTERN, .sheet = long_label(), .pattern = pattern}, 0, 0, line);
    expect_long("1,025 bytes, sound", repeated(16, LONG_BRANCH, "/"), 13, 1024);
    expect_long("1,088 bytes, sound", repeated(17, LONG_BRANCH, ""), 13, 1024);
    expect_long("1,025 bytes, a fault at 1,024", repeated(16, LONG_BRANCH, "]"), 13, 1024);
    expect_long("1,027 bytes, a fault at 1,022", repeated(511, "/a", "*]."), 13, 1022);
    expect_long("1,024 bytes, all brackets open", repeated(512, "[a", ""), 13, 1024);
    expect_long("1,026 bytes, all brackets open", repeated(513, "[a", ""), 13, 1024);
    expect_long("a label of 1,200 bytes", repeated(120, TEN, ""), 13, 0);
    expect_long("behind a slash", repeated(1, "/", TEN TEN TEN TEN TEN TEN "a"), 14, 0);
    expect_long("1,024 bytes, unknown labels", repeated(512, "/b", ""), 14, 0);
}

static void many_steps(void)
{
    Part sheet = sheet_of(labels, "");
    Part chain = pattern_of(labels, "//a//a//a//a//a//a//a//a//a//a//a//a//a//a//a//a");
    expect_answer("16 steps", (Question){READ_LINE, .sheet = sheet, .line = repeated(16, "//a", "")}, 0, 0, chain);
    expect_refusal("17 steps", (Question){READ_LINE, .sheet = sheet, .line = repeated(16, "//a", "/a")}, 5);
    expect_refusal("the 17th unknown", (Question){READ_LINE, .sheet = sheet, .line = repeated(16, "//a", "/x")}, 14);
    expect_refusal("300 in brackets", (Question){READ_LINE, .sheet = sheet, .line = repeated(300, "[a]", "")}, 5);
    expect_refusal("300 below each other", (Question){READ_LINE, .sheet = sheet, .line = repeated(300, "/a", "")}, 5);
}

// ---- the order of refusals

static void reading_refused(void)
{
    Part sheet = sheet_of(labels, "");
    const char *off = "/a]";
    expect_refusal("the sheet comes first", (Question){READ_LINE, .sheet = bytes_of("00 41"), .line = text_of(off)}, 5);
    expect_off("/x]", 2);
    expect_refusal("14 before 9", (Question){READ_LINE, .sheet = sheet, .line = text_of("[a]/x")}, 14);
    expect_refusal("a label but for its last byte", (Question){READ_LINE, .sheet = sheet, .line = text_of("/ab")}, 14);
    expect_refusal("two near root steps", (Question){READ_LINE, .sheet = sheet, .line = text_of("[a][b]")}, 9);
    Question full = {READ_LINE, .sheet = sheet, .line = text_of("[a]/b"), .withheld = OUT_ROOM};
    expect_refusal("9 before 10", full, 9);
    Question short_of_one = {READ_LINE, .sheet = sheet, .line = text_of("/a/b"), .withheld = OUT_ROOM - 6};
    expect_refusal("6 bytes for 7", short_of_one, 10);
    short_of_one.withheld--;
    expect_answer("7 bytes for 7", short_of_one, 0, 0, pattern_of(labels, "/a/b"));
}

static void writing_refused(void)
{
    Part sheet = sheet_of("a b.c", "/a /a/b.c"), line = text_of("/a/a");
    expect_refusal("the sheet first", (Question){WRITE_SUBSCRIPTION, .sheet = bytes_of("00 41"), .i = 9}, 5);
    expect_refusal("no such subscription", (Question){WRITE_SUBSCRIPTION, .sheet = sheet, .i = 2}, 11);
    expect_refusal("nor this", (Question){WRITE_SUBSCRIPTION, .sheet = sheet, .i = (uint64_t)1 << 32}, 11);
    expect_refusal("a dot", (Question){WRITE_SUBSCRIPTION, .sheet = sheet, .i = 1, .withheld = OUT_ROOM}, 15);
    expect_refusal("no byte", (Question){WRITE_PATTERN, .sheet = sheet, .pattern = bytes_of("")}, 1);
    expect_refusal("17 steps", (Question){WRITE_PATTERN, .sheet = sheet, .pattern = bytes_of("11")}, 5);
    expect_refusal("a parent", (Question){WRITE_PATTERN, .sheet = sheet, .pattern = bytes_of("01 01")}, 6);
    expect_refusal("an axis", (Question){WRITE_PATTERN, .sheet = sheet, .pattern = bytes_of("01 00 02")}, 7);
    expect_refusal("a label", (Question){WRITE_PATTERN, .sheet = sheet, .pattern = bytes_of("01 00 00 03")}, 8);
    expect_refusal("two near", (Question){WRITE_PATTERN, .sheet = sheet, .pattern = bytes_of("02 00 00 02 00 00")}, 9);
    expect_refusal("2 before 15", (Question){WRITE_PATTERN, .sheet = sheet, .pattern = bytes_of("01 00 00 02 00")}, 2);
    expect_refusal("15", (Question){WRITE_PATTERN, .sheet = sheet, .pattern = bytes_of("01 00 00 02")}, 15);
    Question short_of_one = {WRITE_PATTERN, .sheet = sheet, .pattern = bytes_of("02 00 00 01 01 00 01")};
    short_of_one.withheld = OUT_ROOM - 3;
    expect_refusal("3 bytes for 4", short_of_one, 10);
    short_of_one.withheld--;
    expect_answer("4 bytes for 4", short_of_one, 0, 0, line);
}

void ask_line_examples(const Side *of)
{
    side = of;
    read_and_written();
    nothing_is_skipped();
    places();
    longest_lines();
    many_steps();
    reading_refused();
    writing_refused();
}
