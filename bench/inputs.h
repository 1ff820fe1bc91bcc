// Random sheets and documents, the same in every run.
#ifndef INPUTS_H
#define INPUTS_H

#include "by_hand.h"
#include "parts.h"

// How random patterns look: how many steps, and of a hundred how many are far and how many have label 0. In a chain
// each hangs on the one before; otherwise on any that it can.
typedef struct {
    unsigned steps, far, any;
    bool chain;
} Shape;

void start_random(uint64_t seed);

// Where the random numbers have come to: started from there, they go on as they would have.
uint64_t random_place(void);

Part random_sheet(unsigned labels, unsigned patterns, Shape shape);

// A sheet of one pattern and so many labels, which have these lengths and are alike but for their last two bytes.
typedef struct {
    unsigned shortest, longest;
} Lengths;
Part long_label_sheet(Lengths lengths, unsigned labels, Shape shape);

// A sheet of two patterns: a random one as number 1, and as number 0 a looser copy, which covers it.
Part covered_sheet(unsigned labels, Shape shape);

// A document beside a sheet of so many labels, with two labels of its own. Each node hangs on any before it.
Part random_document(unsigned labels, unsigned nodes);

// The same, but each node hangs on one of the first, as many as the square root of all, rounded up; or on one of the
// four before it; or on the one before it.
typedef enum { WIDE, DEEP, CHAIN } Hanging;
Part hung_document(unsigned labels, unsigned nodes, Hanging hanging);

// Subscriptions of which few match: families, each with a label of its own, which only one document of four has. The
// members of a family are chains //F/p/q/r and stars //F[/x][/y][/z] by turns, with parts from two sets of labels.
enum { FAMILIES = 8, CHAIN_PARTS = 4, STAR_PARTS = 4, FAMILY_LABELS = FAMILIES + CHAIN_PARTS + STAR_PARTS };
Part family_sheet(unsigned members_of_each);
Part family_document(unsigned nodes);

// A document that satisfies a pattern without near root steps, by its last nodes, one for each step. Only these may have
// a family's label.
Part planted_document(unsigned nodes, const Pattern *pattern);

#endif
