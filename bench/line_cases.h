// Lines of 16 steps that are timed, and how they are made.
#ifndef LINE_CASES_H
#define LINE_CASES_H

#include "cases.h"

void make_line_cases(void);

// The bytes of a sheet's last subscription, which has so many steps; its first one as a line, written by hand.
Part last_pattern(Part sheet, unsigned steps);
Part written_line(Part sheet);

#endif
