// The report: times and ratios, in tables that can be read as they are and pasted into a page.
#include "report.h"

// The heads of a table's columns: the first stands above names, the others above numbers, which get the head's width.
typedef struct {
    unsigned count;
    const char *of[10];
} Heads;

enum { NAME_WIDTH = 48 };

static void add_head(Heads *heads, const char *head)
{
    heads->of[heads->count++] = head;
}

static void print_name(const char *name)
{
    printf("| %-*s |", NAME_WIDTH, name);
}

static void print_heads(const char *title, const Heads *heads)
{
    printf("\n### %s\n\n", title);
    print_name(heads->of[0]);
    for (unsigned i = 1; i < heads->count; i++)
        printf(" %s |", heads->of[i]);
    printf("\n|---|");
    for (unsigned i = 1; i < heads->count; i++)
        printf("---:|");
    printf("\n");
}

static void print_number(const char *head, unsigned decimals, double number)
{
    printf(" %*.*f |", (int)strlen(head), (int)decimals, number);
}

static void print_nothing(const char *head)
{
    printf(" %*s |", (int)strlen(head), "");
}

// ---- sections

static const char *const nanoseconds[MOST_SIDES] = {"by hand, ns a call", "proved, ns a call"};
static const char cell_nanoseconds[] = "by cells, ns a call";
static const char *const cells_to[MOST_SIDES] = {"cells to by hand", "cells to proved"};
static const char growth[] = "to the row above";
static const char ratio[] = "proved to by hand";

static Heads section_heads(const Section *section)
{
    Heads heads = {0};
    add_head(&heads, "case");
    if (section->beside_cells)
        add_head(&heads, cell_nanoseconds);
    for (unsigned s = 0; s < side_count; s++) {
        add_head(&heads, nanoseconds[s]);
        if (section->grows)
            add_head(&heads, growth);
        if (section->beside_cells)
            add_head(&heads, cells_to[s]);
    }
    if (side_count > 1)
        add_head(&heads, ratio);
    return heads;
}

// The times of a row and, where the section grows, what they are to those above, of which the first row has none.
static void print_times(const Section *section, const Times *times, const Times *above)
{
    if (section->beside_cells)
        print_number(cell_nanoseconds, 0, times->by_cells);
    for (unsigned s = 0; s < side_count; s++) {
        print_number(nanoseconds[s], 0, times->of[s]);
        if (section->grows && above == NULL)
            print_nothing(growth);
        else if (section->grows)
            print_number(growth, 2, times->of[s] / above->of[s]);
        if (section->beside_cells)
            print_number(cells_to[s], 2, times->by_cells / times->of[s]);
    }
    if (side_count > 1)
        print_number(ratio, 2, times->of[1] / times->of[0]);
    printf("\n");
}

void report_section(const Section *section)
{
    Heads heads = section_heads(section);
    Times times, above;
    print_heads(section->title, &heads);
    for (unsigned i = 0; i < section->count; i++) {
        times = time_case(&section->cases[i], section->beside_cells);
        print_name(section->cases[i].name);
        print_times(section, &times, i == 0 ? NULL : &above);
        above = times;
    }
}

// ---- the same documents by two calls

// Heads for a pair: the first call's time, which names the side, the second's, and their ratio.
typedef struct {
    const char *first[MOST_SIDES], *second, *ratio;
} PairHeads;

static void add_pair_heads(Heads *heads, const PairHeads *of)
{
    for (unsigned s = 0; s < side_count; s++) {
        add_head(heads, of->first[s]);
        add_head(heads, of->second);
        add_head(heads, of->ratio);
    }
}

static void print_pair(const PairHeads *heads, const Times *first, const Times *second)
{
    for (unsigned s = 0; s < side_count; s++) {
        print_number(heads->first[s], 0, first->of[s]);
        print_number(heads->second, 0, second->of[s]);
        print_number(heads->ratio, 2, second->of[s] / first->of[s]);
    }
}

// ---- documents of which few match

static const char matching[] = "match, %", trying[] = "tried of 64", sparing[] = "spared, %";
static const PairHeads rare_times = {{"by hand: plain, ns", "proved: plain, ns"}, "table, ns", "table to plain"};

static Heads rare_heads(void)
{
    Heads heads = {0};
    add_head(&heads, "64 subscriptions");
    add_head(&heads, matching);
    add_head(&heads, trying);
    add_head(&heads, sparing);
    add_pair_heads(&heads, &rare_times);
    return heads;
}

// The middle of the row: how many of all subscriptions were delivered, how many patterns were tried, and spared.
static void print_tries(const Case *table)
{
    static Answer answer;
    double delivered = 0, tried = 0, all = 64.0 * table->count;
    for (unsigned i = 0; i < table->count; i++) {
        ask_afresh(&answer, &sides[0], &table->questions[i]);
        delivered += __builtin_popcountll(answer.value);
        tried += (double)answer.count;
    }
    print_number(matching, 2, 100 * delivered / all);
    print_number(trying, 1, tried / table->count);
    print_number(sparing, 0, 100 - 100 * tried / all);
}

void report_rares(void)
{
    Heads heads = rare_heads();
    print_heads(rares.title, &heads);
    for (unsigned i = 0; i < rares.count; i++) {
        const Pair *rare = &rares.of[i];
        Times plain = time_case(&rare->first, false), table = time_case(&rare->second, false);
        print_name(rare->first.name);
        print_tries(&rare->second);
        print_pair(&rare_times, &plain, &table);
        printf("\n");
    }
}

// ---- documents that are wanted early, late or not at all

static const PairHeads wanted_times = {{"by hand: table, ns", "proved: table, ns"}, "wanted, ns", "wanted to table"};
static const char table_ratio[] = "table: proved to by hand", wanted_ratio[] = "wanted: proved to by hand";

static Heads wanted_heads(void)
{
    Heads heads = {0};
    add_head(&heads, "64 subscriptions");
    add_pair_heads(&heads, &wanted_times);
    if (side_count > 1) {
        add_head(&heads, table_ratio);
        add_head(&heads, wanted_ratio);
    }
    return heads;
}

void report_wanteds(void)
{
    Heads heads = wanted_heads();
    print_heads(wanteds.title, &heads);
    for (unsigned i = 0; i < wanteds.count; i++) {
        const Pair *pair = &wanteds.of[i];
        Times table = time_case(&pair->first, false), wanted = time_case(&pair->second, false);
        print_name(pair->first.name);
        print_pair(&wanted_times, &table, &wanted);
        if (side_count > 1) {
            print_number(table_ratio, 2, table.of[1] / table.of[0]);
            print_number(wanted_ratio, 2, wanted.of[1] / wanted.of[0]);
        }
        printf("\n");
    }
}
