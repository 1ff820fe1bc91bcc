// How much stack a call takes.
#ifndef STACK_H
#define STACK_H

extern const char stack_title[];
void report_stack(void);

#endif
