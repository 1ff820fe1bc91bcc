// The two sides, and how each is asked.
#include "sides.h"
#include "by_hand.h"

const Side sides[] = {
    {"by hand", hand_sheet_check, hand_plain_route, hand_table_route, hand_wanted, hand_covers, hand_merge, hand_build,
     hand_read_line, hand_write_pattern, hand_write_subscription},
#ifndef BY_HAND_ONLY
    {"proved", hub_sheet_check, hub_plain_route, hub_table_route, hub_wanted, bench_covers, bench_merge, bench_build,
     bench_read_line, bench_write_pattern, bench_write_subscription},
#endif
};
const unsigned side_count = sizeof sides / sizeof sides[0];
const Side by_cells = {.name = "by cells", .plain_route = hand_plain_route_by_cells};

const char *const call_names[] = {
    [SHEET_CHECK] = "sheet check",
    [PLAIN_ROUTE] = "plain route",
    [TABLE_ROUTE] = "table route",
    [WANTED] = "wanted",
    [COVERS] = "covering",
    [MERGE] = "merging",
    [BUILD] = "building",
    [READ_LINE] = "reading a line",
    [WRITE_PATTERN] = "writing a pattern",
    [WRITE_SUBSCRIPTION] = "writing a subscription",
};

static void ask_route(Answer *answer, const Side *side, const Question *q)
{
    if (q->call == PLAIN_ROUTE) {
        Routed r = side->plain_route(q->sheet.at, q->sheet.length, q->document.at, q->document.length);
        answer->number = r.number;
        answer->value = r.delivered;
    } else {
        Tabled r = side->table_route(q->sheet.at, q->sheet.length, q->table.at, q->table.length, q->document.at,
                                     q->document.length);
        answer->number = r.number;
        answer->value = r.delivered;
        answer->count = r.tried;
    }
}

static void ask_wanted(Answer *answer, const Side *side, const Question *q)
{
    Asked r = side->wanted(q->sheet.at, q->sheet.length, q->table.at, q->table.length, q->document.at,
                           q->document.length);
    answer->number = r.number;
    answer->value = r.said;
}

static void ask_merge(Answer *answer, const Side *side, const Question *q)
{
    Merged r = side->merge(q->sheet.at, q->sheet.length, q->i, q->j, answer->out, OUT_ROOM - q->withheld);
    answer->number = r.number;
    answer->value = r.clipped;
    answer->length = r.length;
}

static void ask_build(Answer *answer, const Side *side, const Question *q)
{
    Built r = side->build(q->sheet.at, q->sheet.length, q->limit, answer->out, OUT_ROOM - q->withheld);
    answer->number = r.number;
    answer->count = r.rounds;
    answer->length = r.length;
}

static void ask_read_line(Answer *answer, const Side *side, const Question *q)
{
    LineRead r = side->read_line(q->sheet.at, q->sheet.length, q->line.at, q->line.length, answer->out,
                                 OUT_ROOM - q->withheld);
    answer->number = r.number;
    answer->value = r.place;
    answer->length = r.length;
}

static void ask_write_line(Answer *answer, const Side *side, const Question *q)
{
    size_t room = OUT_ROOM - q->withheld;
    LineWritten r;
    if (q->call == WRITE_PATTERN)
        r = side->write_pattern(q->sheet.at, q->sheet.length, q->pattern.at, q->pattern.length, answer->out, room);
    else
        r = side->write_subscription(q->sheet.at, q->sheet.length, q->i, answer->out, room);
    answer->number = r.number;
    answer->length = r.length;
}

static void ask_covers(Answer *answer, const Side *side, const Question *q)
{
    Asked r = side->covers(q->sheet.at, q->sheet.length, q->i, q->j);
    answer->number = r.number;
    answer->value = r.said;
}

void ask(Answer *answer, const Side *side, const Question *q)
{
    switch (q->call) {
    case SHEET_CHECK:
        answer->number = side->sheet_check(q->sheet.at, q->sheet.length);
        break;
    case PLAIN_ROUTE:
    case TABLE_ROUTE:
        ask_route(answer, side, q);
        break;
    case WANTED:
        ask_wanted(answer, side, q);
        break;
    case COVERS:
        ask_covers(answer, side, q);
        break;
    case MERGE:
        ask_merge(answer, side, q);
        break;
    case BUILD:
        ask_build(answer, side, q);
        break;
    case READ_LINE:
        ask_read_line(answer, side, q);
        break;
    case WRITE_PATTERN:
    case WRITE_SUBSCRIPTION:
        ask_write_line(answer, side, q);
        break;
    }
}

void ask_afresh(Answer *answer, const Side *side, const Question *question)
{
    memset(answer, 0, sizeof *answer);
    memset(answer->out, AS_FOUND, OUT_ROOM);
    ask(answer, side, question);
}

bool same(const Answer *a, const Answer *b)
{
    return a->number == b->number && a->value == b->value && a->count == b->count && a->length == b->length
           && memcmp(a->out, b->out, OUT_ROOM) == 0;
}
