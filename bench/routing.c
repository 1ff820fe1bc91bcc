// Routing, plain and by a table, and whether a notice is wanted at all.
#include "by_hand.h"

// Do the entries share out the subscriptions, with none left empty, and none given what it does not cover?
static bool is_fair(const Table *table, const Sheet *sheet)
{
    uint64_t all = sheet->count == 64 ? ~(uint64_t)0 : ((uint64_t)1 << sheet->count) - 1;
    uint64_t met = 0;
    for (unsigned i = 0; i < table->count; i++) {
        uint64_t members = table->entries[i].members;
        if (members == 0 || (members & ~all) != 0 || (members & met) != 0)
            return false;
        met |= members;
    }
    if (met != all)
        return false;
    for (unsigned i = 0; i < table->count; i++)
        for (uint64_t rest = table->entries[i].members; rest != 0; rest &= rest - 1)
            if (!covers(&table->entries[i].pattern, &sheet->patterns[__builtin_ctzll(rest)]))
                return false;
    return true;
}

typedef bool Matcher(const Document *document, const Pattern *pattern);

static inline Routed plain_route(Matcher *matcher, const uint8_t *sheet_bytes, size_t sheet_length,
                                 const uint8_t *document_bytes, size_t document_length)
{
    Sheet sheet;
    Document document;
    uint8_t number = read_sheet(&sheet, sheet_bytes, sheet_length);
    if (number == DONE)
        number = read_document(&document, &sheet, document_bytes, document_length);
    if (number != DONE)
        return (Routed){number, 0};
    uint64_t delivered = 0;
    for (unsigned i = 0; i < sheet.count; i++)
        delivered |= (uint64_t)matcher(&document, &sheet.patterns[i]) << i;
    return (Routed){DONE, delivered};
}

Routed hand_plain_route(const uint8_t *sheet, size_t sheet_length, const uint8_t *document, size_t document_length)
{
    return plain_route(satisfies, sheet, sheet_length, document, document_length);
}

Routed hand_plain_route_by_cells(const uint8_t *sheet, size_t sheet_length, const uint8_t *document,
                                 size_t document_length)
{
    return plain_route(satisfies_by_cells, sheet, sheet_length, document, document_length);
}

// All that a route by a table needs, once it is judged.
typedef struct {
    Sheet sheet;
    Table table;
    Document document;
} Judged;

static uint8_t judge(Judged *judged, const uint8_t *sheet_bytes, size_t sheet_length, const uint8_t *table_bytes,
                     size_t table_length, const uint8_t *document_bytes, size_t document_length)
{
    uint8_t number = read_sheet(&judged->sheet, sheet_bytes, sheet_length);
    if (number == DONE)
        number = read_table(&judged->table, &judged->sheet, table_bytes, table_length);
    if (number == DONE && !is_fair(&judged->table, &judged->sheet))
        number = NOT_FAIR;
    if (number == DONE)
        number = read_document(&judged->document, &judged->sheet, document_bytes, document_length);
    return number;
}

// One try.
static bool try_pattern(const Document *document, const Pattern *pattern, uint64_t *tried)
{
    ++*tried;
    return satisfies(document, pattern);
}

// To every shed that gets the notice; or to the first of them, and nothing is tried after it.
static Tabled route(const Judged *judged, bool first_only)
{
    Tabled routed = {DONE, 0, 0};
    for (unsigned e = 0; e < judged->table.count; e++) {
        const Entry *entry = &judged->table.entries[e];
        if (!try_pattern(&judged->document, &entry->pattern, &routed.tried))
            continue;
        for (uint64_t rest = entry->members; rest != 0; rest &= rest - 1) {
            unsigned i = (unsigned)__builtin_ctzll(rest);
            if (!try_pattern(&judged->document, &judged->sheet.patterns[i], &routed.tried))
                continue;
            routed.delivered |= (uint64_t)1 << i;
            if (first_only)
                return routed;
        }
    }
    return routed;
}

Tabled hand_table_route(const uint8_t *sheet, size_t sheet_length, const uint8_t *table, size_t table_length,
                        const uint8_t *document, size_t document_length)
{
    Judged judged;
    uint8_t number = judge(&judged, sheet, sheet_length, table, table_length, document, document_length);
    if (number != DONE)
        return (Tabled){number, 0, 0};
    return route(&judged, false);
}

Asked hand_wanted(const uint8_t *sheet, size_t sheet_length, const uint8_t *table, size_t table_length,
                  const uint8_t *document, size_t document_length)
{
    Judged judged;
    uint8_t number = judge(&judged, sheet, sheet_length, table, table_length, document, document_length);
    if (number != DONE)
        return (Asked){number, false};
    return (Asked){DONE, route(&judged, true).delivered != 0};
}
