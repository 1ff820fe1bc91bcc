// Reading sheets, tables and documents. A cursor goes over the bytes once, and no field is looked at before the one in
// front of it has passed.
#include "by_hand.h"

typedef struct {
    const uint8_t *at, *end;
} Bytes;

static size_t left(const Bytes *bytes)
{
    return (size_t)(bytes->end - bytes->at);
}

// The next byte, or -1 where there is none.
static int next(Bytes *bytes)
{
    return bytes->at < bytes->end ? *bytes->at++ : -1;
}

static uint8_t at_end(const Bytes *bytes)
{
    return bytes->at == bytes->end ? DONE : BYTES_REMAIN;
}

static bool has_label(const Labels *labels, const uint8_t *label)
{
    for (unsigned i = 0; i < labels->count; i++)
        if (labels->at[i][0] == label[0] && memcmp(labels->at[i] + 1, label + 1, label[0]) == 0)
            return true;
    return false;
}

static uint8_t read_label(Bytes *bytes, Labels *labels)
{
    const uint8_t *label = bytes->at;
    int length = next(bytes);
    if (length < 0)
        return ENDS_EARLY;
    if (length == 0 || length > LONGEST_LABEL)
        return LABEL_LENGTH;
    if (left(bytes) < (size_t)length)
        return ENDS_EARLY;
    if (has_label(labels, label))
        return LABEL_TWICE;
    bytes->at += length;
    labels->at[labels->count++] = label;
    return DONE;
}

// Appends a section of labels to those that are known.
static uint8_t read_labels(Bytes *bytes, Labels *labels)
{
    int count = next(bytes);
    if (count < 0)
        return ENDS_EARLY;
    if (labels->count + (unsigned)count > MOST_LABELS)
        return WRONG_COUNT;
    for (int i = 0; i < count; i++) {
        uint8_t number = read_label(bytes, labels);
        if (number != DONE)
            return number;
    }
    return DONE;
}

// Can the next step of the pattern hang here? The parent must be on the path from the last step up to the root.
static bool may_hang(const Pattern *pattern, int parent)
{
    int above = pattern->count;
    while (above > parent)
        above = pattern->steps[above - 1].parent;
    return above == parent;
}

static uint8_t read_step(Bytes *bytes, Pattern *pattern, unsigned labels, bool *near_root)
{
    int parent = next(bytes);
    if (parent < 0)
        return ENDS_EARLY;
    if (!may_hang(pattern, parent))
        return WRONG_PARENT;
    int axis = next(bytes);
    if (axis < 0)
        return ENDS_EARLY;
    if (axis > FAR)
        return WRONG_AXIS;
    if (parent == 0 && axis == NEAR) {
        if (*near_root)
            return SECOND_NEAR;
        *near_root = true;
    }
    int label = next(bytes);
    if (label < 0)
        return ENDS_EARLY;
    if ((unsigned)label > labels)
        return WRONG_LABEL;
    pattern->steps[pattern->count++] = (Step){(uint8_t)parent, (uint8_t)axis, (uint8_t)label};
    return DONE;
}

static uint8_t read_pattern(Bytes *bytes, Pattern *pattern, unsigned labels)
{
    bool near_root = false;
    int count = next(bytes);
    if (count < 0)
        return ENDS_EARLY;
    if (count > MOST_STEPS)
        return WRONG_COUNT;
    pattern->count = 0;
    for (int i = 0; i < count; i++) {
        uint8_t number = read_step(bytes, pattern, labels, &near_root);
        if (number != DONE)
            return number;
    }
    return DONE;
}

uint8_t read_only_pattern(Pattern *pattern, const Sheet *sheet, const uint8_t *from, size_t length)
{
    Bytes bytes = {from, from + length};
    uint8_t number = read_pattern(&bytes, pattern, sheet->labels.count);
    return number == DONE ? at_end(&bytes) : number;
}

uint8_t read_sheet(Sheet *sheet, const uint8_t *from, size_t length)
{
    Bytes bytes = {from, from + length};
    sheet->labels.count = 0;
    uint8_t number = read_labels(&bytes, &sheet->labels);
    if (number != DONE)
        return number;
    int count = next(&bytes);
    if (count < 0)
        return ENDS_EARLY;
    if (count > MOST_PATTERNS)
        return WRONG_COUNT;
    sheet->count = (unsigned)count;
    for (unsigned i = 0; i < sheet->count; i++) {
        number = read_pattern(&bytes, &sheet->patterns[i], sheet->labels.count);
        if (number != DONE)
            return number;
    }
    return at_end(&bytes);
}

static uint8_t read_entry(Bytes *bytes, Entry *entry, unsigned labels)
{
    if (left(bytes) < 8)
        return ENDS_EARLY;
    entry->members = 0;
    for (unsigned i = 0; i < 8; i++)
        entry->members |= (uint64_t)bytes->at[i] << (8 * i);
    bytes->at += 8;
    return read_pattern(bytes, &entry->pattern, labels);
}

uint8_t read_table(Table *table, const Sheet *sheet, const uint8_t *from, size_t length)
{
    Bytes bytes = {from, from + length};
    int count = next(&bytes);
    if (count < 0)
        return ENDS_EARLY;
    if (count > MOST_PATTERNS)
        return WRONG_COUNT;
    table->count = (unsigned)count;
    for (unsigned i = 0; i < table->count; i++) {
        uint8_t number = read_entry(&bytes, &table->entries[i], sheet->labels.count);
        if (number != DONE)
            return number;
    }
    return at_end(&bytes);
}

// Reads node u; the first one is the root node.
static uint8_t read_node(Bytes *bytes, Node *node, unsigned u, unsigned labels)
{
    if (left(bytes) < 2)
        return ENDS_EARLY;
    unsigned parent = bytes->at[0] + 256u * bytes->at[1];
    bytes->at += 2;
    if (u == 1 ? parent != 0 : parent == 0 || parent >= u)
        return WRONG_PARENT;
    int label = next(bytes);
    if (label < 0)
        return ENDS_EARLY;
    if (label == 0 || (unsigned)label > labels)
        return WRONG_LABEL;
    *node = (Node){(uint16_t)parent, (uint8_t)label};
    return DONE;
}

uint8_t read_document(Document *document, const Sheet *sheet, const uint8_t *from, size_t length)
{
    Bytes bytes = {from, from + length};
    Labels labels = sheet->labels;
    uint8_t number = read_labels(&bytes, &labels);
    if (number != DONE)
        return number;
    if (left(&bytes) < 2)
        return ENDS_EARLY;
    document->count = bytes.at[0] + 256u * bytes.at[1];
    bytes.at += 2;
    if (document->count == 0 || document->count > MOST_NODES)
        return WRONG_COUNT;
    for (unsigned u = 1; u <= document->count; u++) {
        number = read_node(&bytes, &document->nodes[u - 1], u, labels.count);
        if (number != DONE)
            return number;
    }
    return at_end(&bytes);
}

size_t write_pattern(uint8_t *to, const Pattern *pattern)
{
    to[0] = pattern->count;
    memcpy(to + 1, pattern->steps, pattern->count * sizeof(Step));
    return 1 + pattern->count * sizeof(Step);
}

uint8_t hand_sheet_check(const uint8_t *sheet_bytes, size_t sheet_length)
{
    Sheet sheet;
    return read_sheet(&sheet, sheet_bytes, sheet_length);
}
