// The calls of the proved library, as C sees them, and the shapes of their answers.
#ifndef PROVED_H
#define PROVED_H

#include "c_library.h"

typedef struct {
    uint8_t number;
    uint64_t delivered;
} Routed;

typedef struct {
    uint8_t number;
    uint64_t delivered, tried;
} Tabled;

typedef struct {
    uint8_t number;
    bool said;
} Asked;

typedef struct {
    uint8_t number;
    bool clipped;
    uint64_t length;
} Merged;

typedef struct {
    uint8_t number;
    uint64_t rounds, length;
} Built;

typedef struct {
    uint8_t number;
    uint64_t place, length;
} LineRead;

typedef struct {
    uint8_t number;
    uint64_t length;
} LineWritten;

uint8_t hub_sheet_check(const uint8_t *sheet, size_t sheet_length);
Routed hub_plain_route(const uint8_t *sheet, size_t sheet_length, const uint8_t *document, size_t document_length);
Tabled hub_table_route(const uint8_t *sheet, size_t sheet_length, const uint8_t *table, size_t table_length,
                       const uint8_t *document, size_t document_length);
Asked hub_wanted(const uint8_t *sheet, size_t sheet_length, const uint8_t *table, size_t table_length,
                 const uint8_t *document, size_t document_length);
Asked bench_covers(const uint8_t *sheet, size_t sheet_length, uint64_t i, uint64_t j);
Merged bench_merge(const uint8_t *sheet, size_t sheet_length, uint64_t i, uint64_t j, uint8_t *out, size_t out_length);
Built bench_build(const uint8_t *sheet, size_t sheet_length, uint16_t limit, uint8_t *out, size_t out_length);
LineRead bench_read_line(const uint8_t *sheet, size_t sheet_length, const uint8_t *line, size_t line_length,
                         uint8_t *out, size_t out_length);
LineWritten bench_write_pattern(const uint8_t *sheet, size_t sheet_length, const uint8_t *pattern,
                                size_t pattern_length, uint8_t *out, size_t out_length);
LineWritten bench_write_subscription(const uint8_t *sheet, size_t sheet_length, uint64_t i, uint8_t *out,
                                     size_t out_length);

#endif
