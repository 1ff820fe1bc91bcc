// The tables that are routed by, and those that were built and passed over, each built by hand.
#include "tables.h"
#include "by_hand.h"

enum { MOST_TABLES = 64 };

static Question builds[MOST_TABLES];

Case tables = {"the tables that are built for routes", 0, builds};

Part built_table(Part sheet, uint16_t limit)
{
    if (tables.count == MOST_TABLES) {
        printf("tables.c has no room for another table\n");
        exit(2);
    }
    Question *build = &builds[tables.count++];
    *build = (Question){BUILD, .sheet = sheet, .limit = limit};
    Answer answer;
    ask_afresh(&answer, &sides[0], build);
    begin_part();
    for (size_t i = 0; i < answer.length; i++)
        put(answer.out[i]);
    return end_part();
}

unsigned steps_in(Part table)
{
    size_t without_steps = 1 + 9 * (size_t)table.at[0]; // the count, and for each entry its members and its own count
    return (unsigned)((table.length - without_steps) / sizeof(Step));
}
