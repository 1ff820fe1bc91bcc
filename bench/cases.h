// What is asked and timed, in sections of the printed report.
#ifndef CASES_H
#define CASES_H

#include "sides.h"

// A row about documents asks of so many: of a few the processor learns the jumps by heart.
enum { DOCUMENTS = 64 };

// One row: some questions of one kind, asked in turn.
typedef struct {
    char name[72];
    unsigned count;
    Question *questions;
} Case;

// Rows under a title. Where they grow, each asks for twice as much as the row before. Where they stand beside cells,
// the matcher by cells is timed too.
typedef struct {
    const char *title;
    bool grows, beside_cells;
    unsigned count;
    Case *cases;
} Section;

extern Section sections[];
extern unsigned section_count;

void make_cases(void);

// Puts a section; a case into the last section, named by what it is, and by a number where `of` says of what; a
// question into the last case.
void add_section(const char *title, bool grows);
Case *add_case(const char *what, unsigned number, const char *of);
void add_question(Case *to, Question question);

#endif
