// Questions about lines, good and bad: all short lines, lines and patterns that are a byte away from sound ones, and
// every room that is too small.
#include "line_questions.h"
#include "inputs.h"
#include "line_cases.h"

static Check *check;

// The bytes that a line can be off by, and some that stand in labels.
static const char alphabet[] = "/*[].\nab";
enum { LETTERS = sizeof alphabet - 1, SHORT = 5 };

// Reads a line and, where it is sound, writes what was read.
static void ask_line(Part sheet, Part line)
{
    char name[80];
    snprintf(name, sizeof name, "the line %.*s", (int)line.length, (const char *)line.at);
    const Answer *read = check(name, &(Question){READ_LINE, .sheet = sheet, .line = line});
    if (read == NULL || read->number != DONE)
        return;
    uint8_t pattern[1 + MOST_STEPS * sizeof(Step)];
    Part kept = {pattern, read->length};
    memcpy(pattern, read->out, read->length);
    check(name, &(Question){WRITE_PATTERN, .sheet = sheet, .pattern = kept});
}

// All lines of so many letters, each as a number whose digits are its letters.
static void ask_lines_of(Part sheet, unsigned length)
{
    unsigned count = 1;
    for (unsigned i = 0; i < length; i++)
        count *= LETTERS;
    for (unsigned number = 0; number < count; number++) {
        uint8_t line[SHORT];
        unsigned rest = number;
        for (unsigned i = 0; i < length; i++, rest /= LETTERS)
            line[i] = (uint8_t)alphabet[rest % LETTERS];
        ask_line(sheet, (Part){line, length});
    }
}

static void ask_short_lines(void)
{
    Part sheet = sheet_of("a ba", ""); // and b is unknown
    for (unsigned length = 0; length <= SHORT; length++)
        ask_lines_of(sheet, length);
}

// The line cut at each place, and with each letter there instead of its byte.
static void ask_changed_lines(Part sheet, Part line)
{
    uint8_t changed[LONGEST_LINE];
    memcpy(changed, line.at, line.length);
    for (size_t at = 0; at < line.length; at++) {
        ask_line(sheet, (Part){line.at, at});
        for (unsigned i = 0; i < LETTERS; i++) {
            changed[at] = (uint8_t)alphabet[i];
            ask_line(sheet, (Part){changed, line.length});
        }
        changed[at] = line.at[at];
    }
}

// The pattern cut at each byte, and with each value there that a field of it can be off by.
static void ask_changed_patterns(Part sheet, Part pattern)
{
    static const uint8_t values[] = {0, 1, 2, 3, 8, 9, 15, 16, 17, 255};
    uint8_t changed[1 + MOST_STEPS * sizeof(Step)];
    memcpy(changed, pattern.at, pattern.length);
    for (size_t at = 0; at < pattern.length; at++) {
        check("a pattern cut short", &(Question){WRITE_PATTERN, .sheet = sheet, .pattern = {pattern.at, at}});
        for (unsigned i = 0; i < sizeof values; i++) {
            changed[at] = values[i];
            Part part = {changed, pattern.length};
            check("a changed pattern", &(Question){WRITE_PATTERN, .sheet = sheet, .pattern = part});
        }
        changed[at] = pattern.at[at];
    }
}

// The same question with every room up to one byte more than is needed.
static void ask_with_rooms(const char *name, Question question, size_t needed)
{
    for (size_t room = 0; room <= needed + 1; room++) {
        question.withheld = OUT_ROOM - room;
        check(name, &question);
    }
}

static void ask_around(Shape shape)
{
    Part sheet = random_sheet(8, 1, shape), pattern = last_pattern(sheet, shape.steps), line = written_line(sheet);
    ask_changed_lines(sheet, line);
    ask_changed_patterns(sheet, pattern);
    ask_with_rooms("room for a pattern", (Question){READ_LINE, .sheet = sheet, .line = line}, pattern.length);
    ask_with_rooms("room for a line", (Question){WRITE_PATTERN, .sheet = sheet, .pattern = pattern}, line.length);
    for (unsigned i = 0; i < 3; i++)
        ask_with_rooms("room for it", (Question){WRITE_SUBSCRIPTION, .sheet = sheet, .i = i}, line.length);
}

void check_line_questions(Check *of)
{
    check = of;
    start_random(3);
    ask_short_lines();
    for (unsigned steps = 0; steps <= MOST_STEPS; steps += 4)
        ask_around((Shape){steps, 50, 25, false});
    ask_around((Shape){MOST_STEPS, 100, 0, true});
}
