// What is asked and timed.
#include "cases.h"
#include "inputs.h"
#include "tables.h"

enum { MOST_SECTIONS = 24, MOST_CASES = 160, MOST_QUESTIONS = 8192 };

Section sections[MOST_SECTIONS];
unsigned section_count;

static Case cases[MOST_CASES];
static Question questions[MOST_QUESTIONS];
static unsigned case_count, question_count;

static const Shape bushy = {16, 50, 25, false};
static const Shape far_chain = {16, 100, 25, true};
static const Shape subscription = {8, 50, 25, false};
enum { FEW_LABELS = 3, LABELS = 8, PAIRS = 16 };

// ---- putting sections, cases and questions

void add_section(const char *title, bool grows)
{
    sections[section_count++] = (Section){.title = title, .grows = grows, .cases = cases + case_count};
}

Case *add_case(const char *what, unsigned number, const char *of)
{
    if (case_count == MOST_CASES) {
        printf("cases.c has no room for another case\n");
        exit(2);
    }
    Case *added = &cases[case_count++];
    sections[section_count - 1].count++;
    added->questions = questions + question_count;
    snprintf(added->name, sizeof added->name, of == NULL ? "%s" : "%s, %u %s", what, number, of);
    return added;
}

void add_question(Case *to, Question question)
{
    if (question_count == MOST_QUESTIONS) {
        printf("cases.c has no room for another question\n");
        exit(2);
    }
    questions[question_count++] = question;
    to->count++;
}

// ---- routes

// A random sheet and its table for half of the steps. Some sheets get a table of next to nothing, which leaves little
// to judge and spares no try; they are drawn again, until the table has a quarter. That shifts no later input.
static void draw_with_table(Question *to, unsigned subscriptions, Shape shape)
{
    unsigned half = subscriptions * shape.steps / 2;
    to->sheet = random_sheet(LABELS, subscriptions, shape);
    to->table = built_table(to->sheet, (uint16_t)half);
    uint64_t after_one = random_place();
    while (2 * steps_in(to->table) < half) {
        to->sheet = random_sheet(LABELS, subscriptions, shape);
        to->table = built_table(to->sheet, (uint16_t)half);
    }
    start_random(after_one);
}

// One case of a route over so many documents that the processor does not learn their jumps by heart. Those past the
// fourth shift no later input.
static void add_route(Call call, Case *to, unsigned nodes, unsigned subscriptions, Shape shape)
{
    uint64_t after_four = 0;
    Question question = {.call = call};
    if (call == TABLE_ROUTE)
        draw_with_table(&question, subscriptions, shape);
    else
        question.sheet = random_sheet(LABELS, subscriptions, shape);
    for (unsigned i = 0; i < DOCUMENTS; i++) {
        if (i == 4)
            after_four = random_place();
        question.document = random_document(LABELS, nodes);
        add_question(to, question);
    }
    start_random(after_four);
}

static void add_routes(Call call, const char *title)
{
    add_section(title, false);
    for (unsigned subscriptions = 8; subscriptions <= 64; subscriptions *= 8)
        for (unsigned nodes = 16; nodes <= 1024; nodes *= 8) {
            char what[32];
            snprintf(what, sizeof what, "%u subscriptions", subscriptions);
            add_route(call, add_case(what, nodes, "nodes"), nodes, subscriptions, subscription);
        }
}

static void add_route_growth(Call call, const char *by_nodes, const char *by_subscriptions)
{
    add_section(by_nodes, true);
    for (unsigned nodes = 16; nodes <= 1024; nodes *= 2)
        add_route(call, add_case("16 subscriptions", nodes, "nodes"), nodes, 16, subscription);
    add_section(by_subscriptions, true);
    for (unsigned count = 1; count <= 64; count *= 2)
        add_route(call, add_case("128 nodes", count, "subscriptions"), 128, count, subscription);
}

// ---- covering and merging

// Some pairs of random patterns, each pair a sheet of its own, asked both ways.
static void add_pairs(Call call, Case *to, Shape shape)
{
    for (unsigned i = 0; i < PAIRS; i++) {
        Part sheet = random_sheet(FEW_LABELS, 2, shape);
        add_question(to, (Question){call, .sheet = sheet, .i = 0, .j = 1});
        if (call != SHEET_CHECK)
            add_question(to, (Question){call, .sheet = sheet, .i = 1, .j = 0});
    }
}

// Some random patterns, each with a looser one that covers it.
static void add_covered(Case *to, Shape shape)
{
    for (unsigned i = 0; i < PAIRS; i++)
        add_question(to, (Question){COVERS, .sheet = covered_sheet(FEW_LABELS, shape), .i = 0, .j = 1});
}

static void add_covers(const char *name, const char *patterns)
{
    Part sheet = sheet_of("a b c", patterns);
    add_question(add_case(name, 0, NULL), (Question){COVERS, .sheet = sheet, .i = 0, .j = 1});
}

static void add_judging(void)
{
    add_section("Judging a sheet (a part of every call)", false);
    add_pairs(SHEET_CHECK, add_case("2 patterns of 16 steps, 3 labels", 0, NULL), bushy);
    for (unsigned count = 8; count <= 64; count *= 8) {
        Case *added = add_case("8 steps, 8 labels", count, "subscriptions");
        add_question(added, (Question){SHEET_CHECK, .sheet = random_sheet(LABELS, count, subscription)});
    }
    Case *added = add_case("64 subscriptions of 16 steps", 255, "labels");
    add_question(added, (Question){SHEET_CHECK, .sheet = random_sheet(255, 64, bushy)});
}

static void add_covering(void)
{
    add_section("Covering, 16 steps on 16", false);
    add_pairs(COVERS, add_case("random, two patterns", 0, NULL), bushy);
    add_covered(add_case("random, a pattern and one that covers it", 0, NULL), bushy);
    add_covers("a far chain, no place for its last step",
               "//*//*//*//*//*//*//*//*//*//*//*//*//*//*//*//b //a//a//a//a//a//a//a//a//a//a//a//a//a//a//a//a");
    add_covers("worst: many far children, no place for the last",
               "//*[//b][//b][//b][//b][//b][//b][//b][//b][//b][//b][//b][//b][//b][//b][//c] "
               "//a//a//a//a//a//a//a//a//a//a//a//a//a//a//a//b");
}

static void add_merging(void)
{
    add_section("Merging random bushy patterns", false);
    add_pairs(MERGE, add_case("16 steps", 0, NULL), bushy);
    add_section("Merging chains of far steps", false);
    add_pairs(MERGE, add_case("16 steps", 0, NULL), far_chain);
}

static void add_merging_growth(const char *title, Shape shape)
{
    add_section(title, true);
    for (shape.steps = 1; shape.steps <= 16; shape.steps *= 2)
        add_pairs(MERGE, add_case("2 patterns", shape.steps, "steps"), shape);
}

static void add_covering_growth(void)
{
    Shape shape = bushy;
    add_section("Covering against steps, a pattern and one that covers it", true);
    for (shape.steps = 1; shape.steps <= 16; shape.steps *= 2)
        add_covered(add_case("2 patterns", shape.steps, "steps"), shape);
}

static void add_plain_step_growth(void)
{
    Shape shape = subscription;
    add_section("Plain route against steps", true);
    for (shape.steps = 1; shape.steps <= 16; shape.steps *= 2)
        add_route(PLAIN_ROUTE, add_case("16 subscriptions, 128 nodes", shape.steps, "steps"), 128, 16, shape);
}

// ---- building

static void add_building(void)
{
    Shape small = subscription;
    add_section("Building at limit 0", false);
    Case *added = add_case("64 patterns of 16 steps", 0, NULL);
    add_question(added, (Question){BUILD, .sheet = random_sheet(LABELS, 64, bushy), .limit = 0});
    add_section("Building at limit 0 against subscriptions", true);
    small.steps = 4;
    for (unsigned count = 4; count <= 64; count *= 2) {
        added = add_case("4 steps", count, "subscriptions");
        add_question(added, (Question){BUILD, .sheet = random_sheet(LABELS, count, small), .limit = 0});
    }
}

void make_cases(void)
{
    start_random(1);
    add_routes(PLAIN_ROUTE, "Plain route");
    add_routes(TABLE_ROUTE, "Table route (judging the table, with its covering, included)");
    add_judging();
    add_covering();
    add_merging();
    add_building();
    add_route_growth(PLAIN_ROUTE, "Plain route against nodes", "Plain route against subscriptions");
    add_route_growth(TABLE_ROUTE, "Table route against nodes", "Table route against subscriptions");
    add_plain_step_growth();
    add_covering_growth();
    add_merging_growth("Merging random bushy patterns against steps", bushy);
    add_merging_growth("Merging chains of far steps against steps", far_chain);
}
