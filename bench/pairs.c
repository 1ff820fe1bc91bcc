// The same documents by two calls.
#include "pairs.h"
#include "inputs.h"
#include "tables.h"

enum { MOST_QUESTIONS = 2048, MOST_DRAWS = 1000 };

static Question questions[MOST_QUESTIONS];
static unsigned question_count;

Pairs rares = {
    .title = "Documents of which few match: tries spared, and the table route to the plain route",
    .first = PLAIN_ROUTE,
    .second = TABLE_ROUTE,
};
Pairs wanteds = {
    .title = "Documents wanted early, late or not at all: the call wanted to the table route",
    .first = TABLE_ROUTE,
    .second = WANTED,
};

// The documents by one call, with what the question has beside them.
static Case case_of(const char *name, Question question, unsigned count, const Part *documents)
{
    if (question_count + count > MOST_QUESTIONS) {
        printf("pairs.c has no room for more questions\n");
        exit(2);
    }
    Case made = {.count = count, .questions = questions + question_count};
    snprintf(made.name, sizeof made.name, "%s", name);
    for (unsigned i = 0; i < count; i++) {
        question.document = documents[i];
        questions[question_count++] = question;
    }
    return made;
}

static Pair *add_pair(Pairs *to, const char *name, Part sheet, Part table, unsigned count, const Part *documents)
{
    if (to->count == MOST_PAIRS) {
        printf("pairs.c has no room for another pair\n");
        exit(2);
    }
    Pair *added = &to->of[to->count++];
    added->first = case_of(name, (Question){to->first, .sheet = sheet, .table = table}, count, documents);
    added->second = case_of(name, (Question){to->second, .sheet = sheet, .table = table}, count, documents);
    return added;
}

// ---- documents of which few match

static void add_rare(Part sheet, Part table)
{
    for (unsigned nodes = 16; nodes <= 1024; nodes *= 8) {
        char name[48];
        Part documents[DOCUMENTS];
        snprintf(name, sizeof name, "%u entries, %u nodes", table.at[0], nodes);
        for (unsigned i = 0; i < DOCUMENTS; i++)
            documents[i] = family_document(nodes);
        add_pair(&rares, name, sheet, table, DOCUMENTS, documents);
    }
}

static void add_rares(void)
{
    Part sheet = family_sheet(8);
    add_rare(sheet, built_table(sheet, 128));
    add_rare(sheet, built_table(sheet, 16));
}

// ---- documents that are wanted early, late or not at all

// What is planted in a document, and the sheds that get its notice then.
typedef struct {
    const char *name;
    const Pattern *planted;
    uint64_t delivered;
} Kind;

// Is each document delivered to those sheds, after an entry that matches, and wanted if there are any?
static void check_kind(const Kind *kind, const Pair *pair)
{
    static Answer route, wanted;
    for (unsigned i = 0; i < pair->first.count; i++) {
        ask_afresh(&route, &sides[0], &pair->first.questions[i]);
        ask_afresh(&wanted, &sides[0], &pair->second.questions[i]);
        bool entry_matches = route.count > pair->first.questions[i].table.at[0];
        if (route.value == kind->delivered && entry_matches && wanted.value == (kind->delivered != 0))
            continue;
        printf("%s: document %u is not what it is called: delivered to %lx, not %lx; %lu tried\n", pair->first.name,
               i + 1, route.value, kind->delivered, route.count);
        exit(2);
    }
}

// Where another member matches by chance the document is drawn again; past so many draws it was not by chance.
static Part document_of_kind(const Kind *kind, unsigned nodes, Part sheet, Part table)
{
    static Answer route;
    Question question = {TABLE_ROUTE, .sheet = sheet, .table = table};
    for (unsigned draws = 0; draws < MOST_DRAWS; draws++) {
        question.document = planted_document(nodes, kind->planted);
        ask_afresh(&route, &sides[0], &question);
        if (route.value == kind->delivered)
            break;
    }
    return question.document;
}

static void add_kind(const Kind *kind, Part sheet, Part table)
{
    for (unsigned nodes = 16; nodes <= 1024; nodes *= 8) {
        char name[48];
        Part documents[DOCUMENTS];
        snprintf(name, sizeof name, "%s, %u entries, %u nodes", kind->name, table.at[0], nodes);
        for (unsigned i = 0; i < DOCUMENTS; i++)
            documents[i] = document_of_kind(kind, nodes, sheet, table);
        check_kind(kind, add_pair(&wanteds, name, sheet, table, DOCUMENTS, documents));
    }
}

static void add_wanteds(void)
{
    Part sheet_bytes = family_sheet(8), table_bytes = built_table(sheet_bytes, 16);
    static Sheet sheet;
    static Table table;
    read_sheet(&sheet, sheet_bytes.at, sheet_bytes.length);
    read_table(&table, &sheet, table_bytes.at, table_bytes.length);
    const Entry *first = &table.entries[0], *last = &table.entries[table.count - 1];
    unsigned lowest = (unsigned)__builtin_ctzll(first->members);
    unsigned highest = 63 - (unsigned)__builtin_clzll(last->members);
    const Kind kinds[] = {
        {"early: the first member", &sheet.patterns[lowest], (uint64_t)1 << lowest},
        {"late: the last member", &sheet.patterns[highest], (uint64_t)1 << highest},
        {"none: an entry alone", &last->pattern, 0},
    };
    for (unsigned i = 0; i < sizeof kinds / sizeof kinds[0]; i++)
        add_kind(&kinds[i], sheet_bytes, table_bytes);
}

void make_pairs(void)
{
    add_rares();
    start_random(2);
    add_wanteds();
}
