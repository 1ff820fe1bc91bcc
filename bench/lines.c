// Reading a line of the notation: one pass over its bytes, with a stack of the steps that the open brackets hang on.
#include "by_hand.h"

const bool barred[256] = {['/'] = true, ['*'] = true, ['['] = true, [']'] = true, ['.'] = true, ['\n'] = true};

// How far a line has been read, and what was found: the steps after the sixteenth are counted, and their labels judged,
// but they are not kept.
typedef struct {
    const Labels *labels;
    const uint8_t *at, *end;
    bool all_known;
    unsigned count, near_roots;
    unsigned here; // the step that a branch would hang on
    unsigned depth;
    uint16_t opens[LONGEST_LINE / 2]; // no bracket opens directly after another
    Step steps[MOST_STEPS];
} Line;

// The next byte, or -1 where there is none.
static int peek(const Line *line)
{
    return line->at < line->end ? *line->at : -1;
}

// Takes the byte where it stands next.
static bool take(Line *line, uint8_t byte)
{
    bool stands = peek(line) == byte;
    line->at += stands;
    return stands;
}

// The number of a label; 0 where the sheet has none of these bytes.
static unsigned label_number(const Labels *labels, const uint8_t *bytes, size_t length)
{
    for (unsigned i = 0; i < labels->count; i++)
        if (labels->at[i][0] == length && memcmp(labels->at[i] + 1, bytes, length) == 0)
            return i + 1;
    return 0;
}

// A label; 0 where it is not the sheet's.
static unsigned take_label(Line *line)
{
    const uint8_t *from = line->at;
    while (line->at < line->end && !barred[*line->at])
        line->at++;
    return label_number(line->labels, from, (size_t)(line->at - from));
}

// * or a label: a step, on which branches hang from now on.
static bool take_name(Line *line, uint8_t axis)
{
    unsigned label = ANY;
    if (!take(line, '*')) {
        if (line->at == line->end || barred[*line->at])
            return false;
        label = take_label(line);
        line->all_known &= label != 0;
    }
    if (line->count < MOST_STEPS)
        line->steps[line->count] = (Step){(uint8_t)line->here, axis, (uint8_t)label};
    line->near_roots += line->here == 0 && axis == NEAR;
    line->here = ++line->count;
    return true;
}

// What stands after the first slash of a branch.
static bool take_branch(Line *line)
{
    return take_name(line, take(line, '/') ? FAR : NEAR);
}

// What stands after [ : a branch, or one of its short forms, b for /b and .//b for //b.
static bool take_bracketed(Line *line)
{
    line->opens[line->depth++] = (uint16_t)line->here;
    if (take(line, '/'))
        return take_branch(line);
    if (take(line, '.'))
        return take(line, '/') && take(line, '/') && take_name(line, FAR);
    return take_name(line, NEAR);
}

// The branch in the bracket has ended: the next one hangs where it does.
static bool close_bracket(Line *line)
{
    if (line->depth == 0)
        return false;
    line->at++;
    line->here = line->opens[--line->depth];
    return true;
}

// Where it gives false, the line is at its first fault: a byte that no line has there, or its end.
static bool take_line(Line *line)
{
    if (take(line, '.'))
        return line->at == line->end;
    bool goes_on;
    do {
        if (take(line, '/'))
            goes_on = take_branch(line);
        else if (take(line, '['))
            goes_on = take_bracketed(line);
        else
            goes_on = peek(line) == ']' && close_bracket(line);
    } while (goes_on && line->at < line->end);
    return goes_on && line->depth == 0;
}

// Takes at most so many bytes as a line may have; the stack and the steps need no bytes to begin with.
static void begin_line(Line *line, const Labels *labels, const uint8_t *bytes, size_t length)
{
    line->labels = labels;
    line->at = bytes;
    line->end = bytes + (length < LONGEST_LINE ? length : LONGEST_LINE);
    line->all_known = true;
    line->count = line->near_roots = line->here = line->depth = 0;
}

// What a sound line is refused for, in this order.
static uint8_t judge_steps(const Line *line, size_t room)
{
    if (!line->all_known)
        return LABEL_UNKNOWN;
    if (line->count > MOST_STEPS)
        return WRONG_COUNT;
    if (line->near_roots > 1)
        return SECOND_NEAR;
    return room < 1 + line->count * sizeof(Step) ? NO_ROOM : DONE;
}

LineRead hand_read_line(const uint8_t *sheet_bytes, size_t sheet_length, const uint8_t *bytes, size_t length,
                        uint8_t *out, size_t out_length)
{
    Sheet sheet;
    uint8_t number = read_sheet(&sheet, sheet_bytes, sheet_length);
    if (number != DONE)
        return (LineRead){number, 0, 0};
    Line line;
    begin_line(&line, &sheet.labels, bytes, length);
    if (!take_line(&line) || length > LONGEST_LINE)
        return (LineRead){NOT_A_LINE, (uint64_t)(line.at - bytes), 0};
    number = judge_steps(&line, out_length);
    if (number != DONE)
        return (LineRead){number, 0, 0};
    out[0] = (uint8_t)line.count;
    memcpy(out + 1, line.steps, line.count * sizeof(Step));
    return (LineRead){DONE, 0, 1 + line.count * sizeof(Step)};
}
