// Plain routes on documents of different shapes, by one word a node and by one cell a step and node.
#ifndef WORD_CASES_H
#define WORD_CASES_H

void make_word_cases(void);

#endif
