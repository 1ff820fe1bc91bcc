/* The hub's calls for C: is a sheet sound, which sheds get the notice of a document, and does at least one get it.
 *
 * `./archive hub_c` writes the library, crates/hub_c/out/libhub_c.a, for x86-64 Linux. Every call is proved to give what
 * is said here for any bytes at all: none of them needs to be checked first.
 *
 *     uint8_t sheet[HUB_SHEET_MOST], table[HUB_TABLE_MOST], document[HUB_DOCUMENT_MOST];
 *     size_t s = ..., t = ..., d = ...;                        // how many bytes were read into each
 *
 *     hub_table_answer a = hub_table_route(sheet, s, table, t, document, d);
 *     if (a.number != HUB_DONE)
 *         return a.number;                                     // refused: a.delivered and a.tried are 0
 *     for (int shed = 0; shed < 64; shed++)
 *         if (a.delivered >> shed & 1)
 *             print_notice(shed);
 *
 * Where it only matters whether any shed gets the notice, hub_wanted takes the same bytes and ends at the first one.
 *
 * Bytes are passed as a pointer and how many there are. The pointer is never null, also where there are none, and the
 * bytes stay as they are during the call. They are only read, and nothing is kept after the call, so calls may be made
 * from several threads at once.
 *
 * Nothing is allocated. A call takes stack: hub_sheet_check under 1 KB, hub_plain_route under 4 KB, hub_table_route
 * and hub_wanted under 13 KB. These are measured on the deepest inputs, not proved; `bench/run` prints them.
 */
#ifndef HUB_H
#define HUB_H

#include <stdbool.h>
#include <stddef.h>
#include <stdint.h>

#ifdef __cplusplus
extern "C" {
#endif

/* A sound sheet, document or table has at most so many bytes; a longer one is refused. */
#define HUB_SHEET_MOST 18693
#define HUB_DOCUMENT_MOST 18630
#define HUB_TABLE_MOST 3649

/* The number that a call gives. Bytes are judged from the front: the sheet first, then the table, then the document. */
enum hub_number {
    HUB_DONE = 0,            /* done */
    HUB_ENDS_EARLY = 1,      /* the bytes end where one more is needed */
    HUB_BYTES_REMAIN = 2,    /* bytes remain after the last section */
    HUB_LABEL_LENGTH = 3,    /* a label's length is 0 or over 60 */
    HUB_LABEL_AGAIN = 4,     /* a label has occurred before */
    HUB_COUNT = 5,           /* a count is outside its limits */
    HUB_PARENT = 6,          /* a parent breaks its rule */
    HUB_AXIS = 7,            /* an axis is neither 0 nor 1 */
    HUB_LABEL_NUMBER = 8,    /* a label number is outside its range */
    HUB_SECOND_NEAR = 9,     /* a second near step with parent 0 */
    HUB_NO_ROOM = 10,        /* the lent output is too short (given by no call here) */
    HUB_NOT_THERE = 11,      /* a number asked for doesn't exist (given by no call here) */
    HUB_NOT_FAIR = 12        /* the table is well formed but not fair; one that was built from the sheet is */
};

/* A plain route. Bit i of `delivered` is set if subscription i, the shed with number i, gets the notice. */
typedef struct {
    uint8_t number;
    uint64_t delivered;
} hub_plain_answer;

/* A route by a table, and how many patterns were tried for it: all entries of the table, and all members of each entry
 * that matches. */
typedef struct {
    uint8_t number;
    uint64_t delivered;
    uint64_t tried;
} hub_table_answer;

/* Whether at least one shed gets the notice. */
typedef struct {
    uint8_t number;
    bool wanted;
} hub_wanted_answer;

/* Is the sheet sound? */
uint8_t hub_sheet_check(const uint8_t *sheet, size_t sheet_length);

/* Which sheds get the notice of the document: each subscription of the sheet is asked. */
hub_plain_answer hub_plain_route(const uint8_t *sheet, size_t sheet_length,
                                 const uint8_t *document, size_t document_length);

/* The same, by a table that was built from the sheet: it delivers to the same sheds. */
hub_table_answer hub_table_route(const uint8_t *sheet, size_t sheet_length,
                                 const uint8_t *table, size_t table_length,
                                 const uint8_t *document, size_t document_length);

/* Does at least one shed get the notice? `wanted` is true exactly where hub_table_route delivers to a shed, and the refusals
 * are the same. Entries and members are asked in the same order, and nothing after the first member that matches. */
hub_wanted_answer hub_wanted(const uint8_t *sheet, size_t sheet_length,
                             const uint8_t *table, size_t table_length,
                             const uint8_t *document, size_t document_length);

#ifdef __cplusplus
}
#endif

#endif
