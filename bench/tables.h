// The tables that are routed by, and those that were built and passed over.
#ifndef TABLES_H
#define TABLES_H

#include "cases.h"

// Their builds: compared, and not timed. A build at limit 0 always ends in one entry without steps, and its bytes tell
// little.
extern Case tables;

// The table that a sheet gets for a limit.
Part built_table(Part sheet, uint16_t limit);

// How many steps its entries have together.
unsigned steps_in(Part table);

#endif
