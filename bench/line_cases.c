// Lines of 16 steps, read and written. Judging the sheet is a part of each call and is timed beside them, by the same
// sheets: with many labels it is nearly all.
#include "line_cases.h"
#include "inputs.h"

enum { SHEETS = 8 };

static const Shape bushy = {16, 50, 25, false};
static const Shape far_chain = {16, 100, 25, true};

// One row: sheets with one subscription each, the bytes of each, and its line.
typedef struct {
    const char *name;
    Part sheets[SHEETS], patterns[SHEETS], lines[SHEETS];
} Row;

Part last_pattern(Part sheet, unsigned steps)
{
    size_t length = 1 + 3 * steps;
    return (Part){sheet.at + sheet.length - length, length};
}

Part written_line(Part sheet)
{
    static Answer answer;
    ask_afresh(&answer, &sides[0], &(Question){WRITE_SUBSCRIPTION, .sheet = sheet, .i = 0});
    begin_part();
    for (size_t i = 0; i < answer.length; i++)
        put(answer.out[i]);
    return end_part();
}

static void make_row(Row *row, const char *name, Lengths lengths, unsigned labels, Shape shape)
{
    row->name = name;
    for (unsigned i = 0; i < SHEETS; i++) {
        row->sheets[i] = long_label_sheet(lengths, labels, shape);
        row->patterns[i] = last_pattern(row->sheets[i], shape.steps);
        row->lines[i] = written_line(row->sheets[i]);
    }
}

static void add_line_section(Call call, const char *title, const Row *rows, unsigned count)
{
    add_section(title, false);
    for (unsigned r = 0; r < count; r++) {
        Case *to = add_case(rows[r].name, 0, NULL);
        for (unsigned i = 0; i < SHEETS; i++) {
            Part pattern = rows[r].patterns[i], line = rows[r].lines[i];
            add_question(to, (Question){call, .sheet = rows[r].sheets[i], .pattern = pattern, .line = line, .i = 0});
        }
    }
}

void make_line_cases(void)
{
    enum { ROWS = 4 };
    static Row rows[ROWS];
    start_random(4);
    make_row(&rows[0], "a chain, 8 labels of 3 to 12 bytes", (Lengths){3, 12}, 8, far_chain);
    make_row(&rows[1], "bushy, 8 labels of 3 to 12 bytes", (Lengths){3, 12}, 8, bushy);
    make_row(&rows[2], "bushy, 255 labels of 3 to 60 bytes", (Lengths){3, 60}, 255, bushy);
    make_row(&rows[3], "bushy, 255 labels of 60 bytes", (Lengths){60, 60}, 255, bushy);
    add_line_section(SHEET_CHECK, "Judging the sheet beside a line (a part of the three below)", rows, ROWS);
    add_line_section(READ_LINE, "Reading a line of 16 steps", rows, ROWS);
    add_line_section(WRITE_PATTERN, "Writing a pattern of 16 steps as a line", rows, ROWS);
    add_line_section(WRITE_SUBSCRIPTION, "Writing a subscription of 16 steps as a line", rows, ROWS);
}
