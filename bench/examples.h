// The paper's examples, and those that tell easy misreadings apart, asked of a side.
#ifndef EXAMPLES_H
#define EXAMPLES_H

#include "sides.h"

// Prints each example that fails, and gives how many did; *asked is how many there were.
unsigned failed_examples(const Side *side, unsigned *asked);

// For the files of examples: does one hold? Are the lent bytes this part, and as found behind it?
void expect(const char *name, bool held);
bool wrote(const Answer *answer, Part part);

// line_examples.c: those of lines.
void ask_line_examples(const Side *side);

#endif
