// Building a table for a limit.
#include "by_hand.h"

static unsigned steps_together(const Table *table)
{
    unsigned steps = 0;
    for (unsigned i = 0; i < table->count; i++)
        steps += table->entries[i].pattern.count;
    return steps;
}

// Entry i takes over the members of entry j, which leaves the table.
static void join(Table *table, unsigned i, unsigned j)
{
    Entry *entries = table->entries;
    entries[i].members |= entries[j].members;
    table->count--;
    memmove(&entries[j], &entries[j + 1], (table->count - j) * sizeof entries[0]);
}

// Looks for an entry that covers another, and joins the two; false when nothing was found.
static bool settle_once(Table *table)
{
    for (unsigned i = 0; i < table->count; i++)
        for (unsigned j = 0; j < table->count; j++)
            if (i != j && covers(&table->entries[i].pattern, &table->entries[j].pattern)) {
                join(table, i, j);
                return true;
            }
    return false;
}

static void settle(Table *table)
{
    while (settle_once(table))
        ;
}

// The best pair so far and its merge. Nothing saved: no pair yet.
typedef struct {
    unsigned i, j, saved;
    Pattern merged;
} Best;

static void try_pair(Best *best, const Table *table, unsigned i, unsigned j)
{
    const Pattern *p = &table->entries[i].pattern, *q = &table->entries[j].pattern;
    unsigned together = p->count + q->count;
    Pattern merged;
    merge(&merged, p, q);
    if (together > merged.count + best->saved)
        *best = (Best){i, j, together - merged.count, merged};
}

static void cut_largest(Table *table)
{
    unsigned largest = 0;
    for (unsigned i = 1; i < table->count; i++)
        if (table->entries[i].pattern.count > table->entries[largest].pattern.count)
            largest = i;
    table->entries[largest].pattern.count--;
}

static void run_round(Table *table)
{
    Best best = {.saved = 0};
    for (unsigned i = 0; i < table->count; i++)
        for (unsigned j = i + 1; j < table->count; j++)
            try_pair(&best, table, i, j);
    if (best.saved > 0) {
        table->entries[best.i].pattern = best.merged;
        join(table, best.i, best.j);
    } else {
        cut_largest(table);
    }
    settle(table);
}

// Gives the number of rounds.
static unsigned build(Table *table, const Sheet *sheet, unsigned limit)
{
    table->count = sheet->count;
    for (unsigned i = 0; i < sheet->count; i++)
        table->entries[i] = (Entry){(uint64_t)1 << i, sheet->patterns[i]};
    settle(table);
    unsigned rounds = 0;
    while (steps_together(table) > limit) {
        run_round(table);
        rounds++;
    }
    return rounds;
}

static size_t write_table(uint8_t *to, const Table *table)
{
    size_t at = 0;
    to[at++] = (uint8_t)table->count;
    for (unsigned i = 0; i < table->count; i++) {
        for (unsigned byte = 0; byte < 8; byte++)
            to[at++] = (uint8_t)(table->entries[i].members >> (8 * byte));
        at += write_pattern(to + at, &table->entries[i].pattern);
    }
    return at;
}

Built hand_build(const uint8_t *sheet_bytes, size_t sheet_length, uint16_t limit, uint8_t *out, size_t out_length)
{
    Sheet sheet;
    uint8_t number = read_sheet(&sheet, sheet_bytes, sheet_length);
    if (number != DONE)
        return (Built){number, 0, 0};
    Table table;
    unsigned rounds = build(&table, &sheet, limit);
    if (out_length < 1 + 9 * table.count + sizeof(Step) * steps_together(&table))
        return (Built){NO_ROOM, 0, 0};
    return (Built){DONE, rounds, write_table(out, &table)};
}
