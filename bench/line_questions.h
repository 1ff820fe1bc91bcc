// Questions about lines that are compared and not timed: most of them are refused.
#ifndef LINE_QUESTIONS_H
#define LINE_QUESTIONS_H

#include "sides.h"

// Asks both sides, and gives what they answer; NULL where they differ.
typedef const Answer *Check(const char *of, const Question *question);

void check_line_questions(Check *check);

#endif
