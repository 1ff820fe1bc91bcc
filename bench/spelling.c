// Writing a pattern as a line of the notation: its length first, so that nothing is written where there is no room.
#include "by_hand.h"

// A label's length and bytes; * for any.
static const uint8_t *label_text(const Labels *labels, uint8_t label)
{
    static const uint8_t star[] = {1, '*'};
    return label == ANY ? star : labels->at[label - 1];
}

static bool is_writable(const uint8_t *label)
{
    for (unsigned i = 1; i <= label[0]; i++)
        if (barred[label[i]])
            return false;
    return true;
}

// The steps below which several branches stand, each in brackets, as a set; bit 0 is the root.
static uint32_t find_forks(const Pattern *pattern)
{
    uint32_t once = 0, again = 0;
    for (unsigned k = 1; k <= pattern->count; k++) {
        uint32_t parent = (uint32_t)1 << pattern->steps[k - 1].parent;
        again |= once & parent;
        once |= parent;
    }
    return again;
}

static bool is_in_brackets(Step step, uint32_t forks)
{
    return forks >> step.parent & 1;
}

// How many bytes the line has; 0 where a label cannot stand in one.
static size_t line_length(const Labels *labels, const Pattern *pattern, uint32_t forks)
{
    size_t length = pattern->count == 0; // the dot
    for (unsigned k = 1; k <= pattern->count; k++) {
        Step step = pattern->steps[k - 1];
        const uint8_t *text = label_text(labels, step.label);
        if (step.label != ANY && !is_writable(text))
            return 0;
        length += 1u + step.axis + text[0] + 2u * is_in_brackets(step, forks);
    }
    return length;
}

// Closes the brackets of the steps from k upwards that end before a child of `parent` comes.
static uint8_t *close_brackets(uint8_t *to, const Pattern *pattern, uint32_t forks, unsigned k, unsigned parent)
{
    for (; k != parent; k = pattern->steps[k - 1].parent)
        if (is_in_brackets(pattern->steps[k - 1], forks))
            *to++ = ']';
    return to;
}

static void put_line(uint8_t *to, const Labels *labels, const Pattern *pattern, uint32_t forks)
{
    if (pattern->count == 0)
        *to = '.';
    for (unsigned k = 1; k <= pattern->count; k++) {
        Step step = pattern->steps[k - 1];
        to = close_brackets(to, pattern, forks, k - 1, step.parent);
        if (is_in_brackets(step, forks))
            *to++ = '[';
        *to++ = '/';
        if (step.axis == FAR)
            *to++ = '/';
        const uint8_t *text = label_text(labels, step.label);
        memcpy(to, text + 1, text[0]);
        to += text[0];
    }
    close_brackets(to, pattern, forks, pattern->count, 0);
}

static LineWritten write_line(const Labels *labels, const Pattern *pattern, uint8_t *out, size_t out_length)
{
    uint32_t forks = find_forks(pattern);
    size_t length = line_length(labels, pattern, forks);
    if (length == 0)
        return (LineWritten){NOT_WRITABLE, 0};
    if (out_length < length)
        return (LineWritten){NO_ROOM, 0};
    put_line(out, labels, pattern, forks);
    return (LineWritten){DONE, length};
}

LineWritten hand_write_pattern(const uint8_t *sheet_bytes, size_t sheet_length, const uint8_t *bytes, size_t length,
                               uint8_t *out, size_t out_length)
{
    Sheet sheet;
    Pattern pattern;
    uint8_t number = read_sheet(&sheet, sheet_bytes, sheet_length);
    if (number == DONE)
        number = read_only_pattern(&pattern, &sheet, bytes, length);
    if (number != DONE)
        return (LineWritten){number, 0};
    return write_line(&sheet.labels, &pattern, out, out_length);
}

LineWritten hand_write_subscription(const uint8_t *sheet_bytes, size_t sheet_length, uint64_t i, uint8_t *out,
                                    size_t out_length)
{
    Sheet sheet;
    uint8_t number = read_sheet(&sheet, sheet_bytes, sheet_length);
    if (number == DONE && i >= sheet.count)
        number = NOT_THERE;
    if (number != DONE)
        return (LineWritten){number, 0};
    return write_line(&sheet.labels, &sheet.patterns[i], out, out_length);
}
