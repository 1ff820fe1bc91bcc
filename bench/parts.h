// Stretches of bytes, made once and kept to the end; the small ones from text, with patterns in the paper's notation.
#ifndef PARTS_H
#define PARTS_H

#include "c_library.h"

typedef struct {
    const uint8_t *at;
    size_t length;
} Part;

// A part is begun, gets its bytes by put, and is ended before another is begun.
void begin_part(void);
void put(unsigned byte);
void put_two(unsigned number);
Part end_part(void);

// From text: words stand apart by single spaces.
Part bytes_of(const char *hexadecimal);
Part pattern_of(const char *labels, const char *pattern);
Part sheet_of(const char *labels, const char *patterns);
Part table_of(const char *labels, const char *members_and_patterns);
Part document_of(const char *labels, const char *parents_and_labels);

#endif
