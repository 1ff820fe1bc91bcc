// Plain routes on documents of different shapes. In a chain the turn of each node waits for what the turn before it
// gives; in a wide document hardly any does.
#include "word_cases.h"
#include "cases.h"
#include "inputs.h"

enum { LABELS = 8 };

static const char *const names[] = {[WIDE] = "wide", [DEEP] = "deep", [CHAIN] = "a chain"};

static void add_documents(Case *to, Part sheet, unsigned nodes, Hanging hanging)
{
    for (unsigned i = 0; i < DOCUMENTS; i++) {
        Part document = hung_document(LABELS, nodes, hanging);
        add_question(to, (Question){PLAIN_ROUTE, .sheet = sheet, .document = document});
    }
}

void make_word_cases(void)
{
    start_random(5);
    Part sheet = random_sheet(LABELS, 64, (Shape){16, 50, 25, false});
    add_section("Plain route by one word a node, beside one cell a step and node: 64 subscriptions of 16 steps", false);
    sections[section_count - 1].beside_cells = true;
    for (Hanging hanging = WIDE; hanging <= CHAIN; hanging++)
        for (unsigned nodes = 16; nodes <= 1024; nodes *= 8)
            add_documents(add_case(names[hanging], nodes, "nodes"), sheet, nodes, hanging);
}
