// The benchmark: the examples, then the same answers from both sides on every input, refused lines among them, then the
// times of both and the stack they take. With the word --compare it ends after the answers; with --only WORDS it reports
// those sections whose titles hold the words.
#include "examples.h"
#include "line_cases.h"
#include "line_questions.h"
#include "report.h"
#include "stack.h"
#include "tables.h"
#include "word_cases.h"

static void check_examples(void)
{
    for (unsigned s = 0; s < side_count; s++) {
        unsigned asked, failed = failed_examples(&sides[s], &asked);
        printf("- %s: %u of %u examples hold\n", sides[s].name, asked - failed, asked);
        if (failed != 0)
            exit(1);
    }
}

static void print_answer(const Side *side, const Answer *answer)
{
    printf("%s: number %u, value %lx, count %lu, length %lu\n", side->name, answer->number, answer->value,
           answer->count, answer->length);
}

// How many questions were asked, and of how many the answers differ or are refusals.
static unsigned checked, wrong;

// Says what is wrong with an answer; past some there is no use in showing more.
static void complain(const char *of, const char *what, const Answer *first, const Side *side, const Answer *other)
{
    enum { MOST_SHOWN = 20 };
    if (++wrong > MOST_SHOWN)
        return;
    printf("%s: %s\n", of, what);
    print_answer(&sides[0], first);
    if (side != NULL)
        print_answer(side, other);
}

// Does this side answer as the first one did?
static bool agrees(const Side *side, const char *of, const Question *question, const Answer *first)
{
    static Answer other;
    ask_afresh(&other, side, question);
    if (same(first, &other))
        return true;
    complain(of, "the answers, or the bytes written, differ", first, side, &other);
    return false;
}

// What both sides answer, and in a plain route the matcher by cells; NULL where they differ.
static const Answer *check_alike(const char *of, const Question *question)
{
    static Answer first;
    checked++;
    ask_afresh(&first, &sides[0], question);
    if (side_count > 1 && !agrees(&sides[1], of, question, &first))
        return NULL;
    if (question->call == PLAIN_ROUTE && !agrees(&by_cells, of, question, &first))
        return NULL;
    return &first;
}

// What is timed is not refused.
static void check_question(const char *of, const Question *question)
{
    const Answer *answer = check_alike(of, question);
    if (answer != NULL && answer->number != 0)
        complain(of, "the input is refused", answer, NULL, NULL);
}

static void check_case(const char *title, const Case *of)
{
    for (unsigned i = 0; i < of->count; i++) {
        const Question *question = &of->questions[i];
        char name[200];
        snprintf(name, sizeof name, "%s, %s, question %u to %s", title, of->name, i + 1, call_names[question->call]);
        check_question(name, question);
    }
}

static void check_pairs(const Pairs *pairs)
{
    for (unsigned i = 0; i < pairs->count; i++) {
        check_case(pairs->title, &pairs->of[i].first);
        check_case(pairs->title, &pairs->of[i].second);
    }
}

// A question that is refused, or answered in two ways, ends the run with status 1.
static void check_cases(void)
{
    for (unsigned i = 0; i < section_count; i++)
        for (unsigned j = 0; j < sections[i].count; j++)
            check_case(sections[i].title, &sections[i].cases[j]);
    check_pairs(&rares);
    check_pairs(&wanteds);
    check_case("Building", &tables);
    check_line_questions(check_alike);
    if (wrong == 0)
        return;
    printf("bench: of %u answers %u differ or are refusals\n", checked, wrong);
    exit(1);
}

// The words that a title has to hold, and how many did.
static const char *only = "";
static unsigned reported;

static bool is_asked_for(const char *title)
{
    bool asked = strstr(title, only) != NULL;
    reported += asked;
    return asked;
}

static void report(void)
{
    printf("- %u questions answered%s\n", checked, side_count > 1 ? ", each alike by both sides" : "");
    for (unsigned i = 0; i < section_count; i++)
        if (is_asked_for(sections[i].title))
            report_section(&sections[i]);
    if (is_asked_for(rares.title))
        report_rares();
    if (is_asked_for(wanteds.title))
        report_wanteds();
    if (is_asked_for(stack_title))
        report_stack();
    if (reported != 0)
        return;
    printf("bench: no title holds '%s'\n", only);
    exit(2);
}

int main(int count, char **words)
{
    check_examples();
    make_cases();
    make_pairs();
    make_word_cases();
    make_line_cases();
    check_cases();
    if (count == 2 && strcmp(words[1], "--compare") == 0) {
        printf("bench: %u answers agree\n", checked);
        return 0;
    }
    if (count == 3 && strcmp(words[1], "--only") == 0)
        only = words[2];
    report();
    return 0;
}
