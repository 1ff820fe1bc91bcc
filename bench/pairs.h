// The same documents by two calls, in sections of the printed report.
#ifndef PAIRS_H
#define PAIRS_H

#include "cases.h"

// One row: the same questions to both calls, under one name.
typedef struct {
    Case first, second;
} Pair;

enum { MOST_PAIRS = 9 };
typedef struct {
    const char *title;
    Call first, second;
    unsigned count;
    Pair of[MOST_PAIRS];
} Pairs;

// Documents of which few match, by the plain route and by the table route.
extern Pairs rares;

// Whether a document is wanted, beside the table route.
extern Pairs wanteds;

void make_pairs(void);

#endif
