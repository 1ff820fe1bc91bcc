// Timing: both sides in turn, in one process, the best of several rounds of each.
#ifndef TIMING_H
#define TIMING_H

#include "cases.h"

enum { MOST_SIDES = 2 };

// Nanoseconds a call, for each side, and by cells where these are timed too.
typedef struct {
    double of[MOST_SIDES], by_cells;
} Times;

Times time_case(const Case *timed, bool beside_cells);

#endif
