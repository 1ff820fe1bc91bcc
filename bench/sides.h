// The two sides, the questions that both are asked, and their answers in one shape.
#ifndef SIDES_H
#define SIDES_H

#include "parts.h"
#include "proved.h"

typedef struct {
    const char *name;
    uint8_t (*sheet_check)(const uint8_t *, size_t);
    Routed (*plain_route)(const uint8_t *, size_t, const uint8_t *, size_t);
    Tabled (*table_route)(const uint8_t *, size_t, const uint8_t *, size_t, const uint8_t *, size_t);
    Asked (*wanted)(const uint8_t *, size_t, const uint8_t *, size_t, const uint8_t *, size_t);
    Asked (*covers)(const uint8_t *, size_t, uint64_t, uint64_t);
    Merged (*merge)(const uint8_t *, size_t, uint64_t, uint64_t, uint8_t *, size_t);
    Built (*build)(const uint8_t *, size_t, uint16_t, uint8_t *, size_t);
    LineRead (*read_line)(const uint8_t *, size_t, const uint8_t *, size_t, uint8_t *, size_t);
    LineWritten (*write_pattern)(const uint8_t *, size_t, const uint8_t *, size_t, uint8_t *, size_t);
    LineWritten (*write_subscription)(const uint8_t *, size_t, uint64_t, uint8_t *, size_t);
} Side;

// By hand, then proved; by hand alone where the program was built without the archive.
extern const Side sides[];
extern const unsigned side_count;

// By hand with one cell a step and node: a plain route alone.
extern const Side by_cells;

typedef enum {
    SHEET_CHECK,
    PLAIN_ROUTE,
    TABLE_ROUTE,
    WANTED,
    COVERS,
    MERGE,
    BUILD,
    READ_LINE,
    WRITE_PATTERN,
    WRITE_SUBSCRIPTION,
} Call;
extern const char *const call_names[];

// What a call does not take is not looked at.
typedef struct {
    Call call;
    Part sheet, table, document, line, pattern;
    uint64_t i, j;
    uint16_t limit;
    size_t withheld; // of the output, which has OUT_ROOM bytes, so many are not lent
} Question;

enum { OUT_ROOM = 4096, AS_FOUND = 0xa5 };

// The value is the delivery set, what was said, the clipped mark or the place; the count is that of tries or rounds.
typedef struct {
    uint8_t number;
    uint64_t value, count, length;
    uint8_t out[OUT_ROOM];
} Answer;

void ask(Answer *answer, const Side *side, const Question *question);

// The same, with the lent bytes filled first, so that two answers are the same exactly when all their bytes are.
void ask_afresh(Answer *answer, const Side *side, const Question *question);
bool same(const Answer *a, const Answer *b);

#endif
