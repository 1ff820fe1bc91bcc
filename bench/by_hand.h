// The by-hand side: what its files share, and its calls, with the signatures of the proved ones.
#ifndef BY_HAND_H
#define BY_HAND_H

#include "proved.h"

enum { MOST_LABELS = 255, LONGEST_LABEL = 60, MOST_PATTERNS = 64, MOST_STEPS = 16, MOST_NODES = 1024 };
enum { LONGEST_LINE = 1024 };
enum { NEAR = 0, FAR = 1 };
enum { ANY = 0 };

// What a call answers first: done, or why it refuses.
enum {
    DONE = 0,
    ENDS_EARLY = 1,
    BYTES_REMAIN = 2,
    LABEL_LENGTH = 3,
    LABEL_TWICE = 4,
    WRONG_COUNT = 5,
    WRONG_PARENT = 6,
    WRONG_AXIS = 7,
    WRONG_LABEL = 8,
    SECOND_NEAR = 9,
    NO_ROOM = 10,
    NOT_THERE = 11,
    NOT_FAIR = 12,
    NOT_A_LINE = 13,
    LABEL_UNKNOWN = 14,
    NOT_WRITABLE = 15,
};

typedef struct {
    uint8_t parent, axis, label;
} Step;

// Step k of a pattern stands at steps[k - 1]; the root is number 0.
typedef struct {
    uint8_t count;
    Step steps[MOST_STEPS];
} Pattern;

typedef struct {
    uint64_t members;
    Pattern pattern;
} Entry;

typedef struct {
    unsigned count;
    Entry entries[MOST_PATTERNS];
} Table;

// Each label is found at its length byte.
typedef struct {
    unsigned count;
    const uint8_t *at[MOST_LABELS];
} Labels;

typedef struct {
    Labels labels;
    unsigned count;
    Pattern patterns[MOST_PATTERNS];
} Sheet;

typedef struct {
    uint16_t parent;
    uint8_t label;
} Node;

// Node u of a document stands at nodes[u - 1]; the top is number 0.
typedef struct {
    unsigned count;
    Node nodes[MOST_NODES];
} Document;

// reading.c: each gives a number, and on DONE what was read.
uint8_t read_sheet(Sheet *sheet, const uint8_t *bytes, size_t length);
uint8_t read_table(Table *table, const Sheet *sheet, const uint8_t *bytes, size_t length);
uint8_t read_document(Document *document, const Sheet *sheet, const uint8_t *bytes, size_t length);

// reading.c: the same of a pattern that is all of the bytes.
uint8_t read_only_pattern(Pattern *pattern, const Sheet *sheet, const uint8_t *bytes, size_t length);

// reading.c: writes a pattern's steps after their count, and gives how many bytes that took.
size_t write_pattern(uint8_t *to, const Pattern *pattern);

// matching.c: one word a node.
bool satisfies(const Document *document, const Pattern *pattern);

// matching_by_cells.c: the same by one cell a step and node, as it was done before, for a plain route of its own.
bool satisfies_by_cells(const Document *document, const Pattern *pattern);

// covering.c: a search for places on the ground for the steps of the laid pattern. notes[v - 1][w - 1] is what is known
// of step v's children below step w.
enum { UNKNOWN, YES, NO };
typedef struct {
    const Pattern *laid, *ground;
    uint8_t notes[MOST_STEPS][MOST_STEPS];
} Laying;

// Is step k labelled any, and without child steps? Then it lies on any child, near or far, of its parent's place,
// whether it is near itself or far.
bool is_starred_leaf(const Pattern *pattern, unsigned k);

bool children_lie(Laying *laying, unsigned v, unsigned w);
bool lies_at(Laying *laying, unsigned v, unsigned w);
bool covers(const Pattern *a, const Pattern *b);

// merging.c: writes the merge of p with q, and says whether it was clipped.
bool merge(Pattern *merged, const Pattern *p, const Pattern *q);

// lines.c: the bytes that no label of a line has.
extern const bool barred[256];

uint8_t hand_sheet_check(const uint8_t *sheet, size_t sheet_length);
Routed hand_plain_route(const uint8_t *sheet, size_t sheet_length, const uint8_t *document, size_t document_length);
Routed hand_plain_route_by_cells(const uint8_t *sheet, size_t sheet_length, const uint8_t *document,
                                 size_t document_length);
Tabled hand_table_route(const uint8_t *sheet, size_t sheet_length, const uint8_t *table, size_t table_length,
                        const uint8_t *document, size_t document_length);
Asked hand_wanted(const uint8_t *sheet, size_t sheet_length, const uint8_t *table, size_t table_length,
                  const uint8_t *document, size_t document_length);
Asked hand_covers(const uint8_t *sheet, size_t sheet_length, uint64_t i, uint64_t j);
Merged hand_merge(const uint8_t *sheet, size_t sheet_length, uint64_t i, uint64_t j, uint8_t *out, size_t out_length);
Built hand_build(const uint8_t *sheet, size_t sheet_length, uint16_t limit, uint8_t *out, size_t out_length);
LineRead hand_read_line(const uint8_t *sheet, size_t sheet_length, const uint8_t *line, size_t line_length,
                        uint8_t *out, size_t out_length);
LineWritten hand_write_pattern(const uint8_t *sheet, size_t sheet_length, const uint8_t *pattern,
                               size_t pattern_length, uint8_t *out, size_t out_length);
LineWritten hand_write_subscription(const uint8_t *sheet, size_t sheet_length, uint64_t i, uint8_t *out,
                                    size_t out_length);

#endif
