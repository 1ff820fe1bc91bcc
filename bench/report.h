// The report: times and ratios, in tables.
#ifndef REPORT_H
#define REPORT_H

#include "pairs.h"
#include "timing.h"

void report_section(const Section *section);
void report_rares(void);
void report_wanteds(void);

#endif
