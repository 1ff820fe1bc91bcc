// How much stack a call takes: the stretch below is painted, a question is asked, and the lowest byte is found that lost
// its paint.
#include "stack.h"
#include "inputs.h"
#include "line_cases.h"

enum { DEEPEST = 1 << 18, PAINT = 0x5a, LABELS = 3, NAME_WIDTH = 22 };

__attribute__((noinline)) static void paint(void)
{
    uint8_t stretch[DEEPEST];
    memset(stretch, PAINT, DEEPEST);
    __asm__ volatile("" : : "m"(stretch)); // the paint is looked at
}

__attribute__((noinline)) static size_t without_paint(void)
{
    uint8_t stretch[DEEPEST];
    __asm__ volatile("" : "=m"(stretch)); // whatever was left there
    size_t i = 0;
    while (i < DEEPEST && stretch[i] == PAINT)
        i++;
    return DEEPEST - i;
}

static size_t stack_of(const Side *side, const Question *question)
{
    static Answer answer;
    paint();
    ask(&answer, side, question);
    return without_paint();
}

// The deepest questions: 64 chains of 16 far steps, each in an entry of its own, and 1,024 nodes.
static Question deepest(Call call)
{
    static Part sheet, table, document, line;
    if (sheet.length == 0) {
        static Answer built;
        start_random(43); // a seed by which both covering and merging go deep
        sheet = random_sheet(LABELS, 64, (Shape){16, 100, 0, true});
        ask_afresh(&built, &sides[0], &(Question){BUILD, .sheet = sheet, .limit = 65535});
        begin_part();
        for (size_t i = 0; i < built.length; i++)
            put(built.out[i]);
        table = end_part();
        document = random_document(LABELS, 1024);
        line = written_line(sheet);
    }
    Question question = {call, .sheet = sheet, .table = table, .document = document, .i = 0, .j = 1};
    question.line = line;
    question.pattern = last_pattern(sheet, 16);
    return question;
}

const char stack_title[] = "Stack for one call: 64 chains of 16 far steps, 1,024 nodes";

void report_stack(void)
{
    printf("\n### %s\n\n| %-*s |", stack_title, NAME_WIDTH, "call");
    for (unsigned s = 0; s < side_count; s++)
        printf(" %7s, bytes |", sides[s].name);
    printf("\n|---|%s\n", side_count > 1 ? "---:|---:|" : "---:|");
    for (Call call = SHEET_CHECK; call <= WRITE_SUBSCRIPTION; call++) {
        Question question = deepest(call);
        printf("| %-*s |", NAME_WIDTH, call_names[call]);
        for (unsigned s = 0; s < side_count; s++)
            printf(" %14zu |", stack_of(&sides[s], &question));
        printf("\n");
    }
}
