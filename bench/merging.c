// Merging. The body of a pair of steps is worked out when it is first wanted; after that the memo has it.
#include "by_hand.h"

// The body of a pair, its own step first, whose axis means nothing. Clipped: room ran out in making it, or in making a
// body that it asked for.
typedef struct {
    Pattern pattern;
    bool clipped;
} Body;

typedef struct {
    Laying p_on_q, q_on_p;
    bool has[MOST_STEPS][MOST_STEPS];
    Body bodies[MOST_STEPS][MOST_STEPS];
} Work;

typedef struct {
    uint8_t axis;
    const Pattern *body;
} Candidate;

// The candidates kept so far at a pair, and how many steps they make up with the pair's own.
typedef struct {
    unsigned count, steps;
    bool clipped;
    Candidate kept[MOST_STEPS];
} Building;

// The number of the last step in the branch of step v.
static unsigned last_below(const Pattern *pattern, unsigned v)
{
    unsigned k = v;
    while (k < pattern->count && pattern->steps[k].parent >= v)
        k++;
    return k;
}

// Appends a branch, hung on a parent by the candidate's axis.
static void put_branch(Pattern *pattern, unsigned parent, Candidate branch)
{
    unsigned before = pattern->count;
    for (unsigned k = 0; k < branch.body->count; k++) {
        Step step = branch.body->steps[k];
        step.parent = (uint8_t)(step.parent + before);
        pattern->steps[before + k] = step;
    }
    pattern->steps[before].parent = (uint8_t)parent;
    pattern->steps[before].axis = branch.axis;
    pattern->count = (uint8_t)(before + branch.body->count);
}

// Copies the branch of step v, numbered anew from 1.
static void copy_body(Pattern *body, const Pattern *from, unsigned v)
{
    unsigned before = v - 1, last = last_below(from, v);
    body->count = (uint8_t)(last - before);
    for (unsigned k = 0; k < body->count; k++) {
        body->steps[k] = from->steps[before + k];
        body->steps[k].parent = (uint8_t)(body->steps[k].parent - before);
    }
    body->steps[0].parent = 0;
}

// With both hung on one parent, does c find a place on k? A starred leaf does on any; a far c may also go deeper.
static bool laid_on(const Candidate *c, const Candidate *k)
{
    if (is_starred_leaf(c->body, 1))
        return true;
    if (c->axis == NEAR && k->axis == FAR)
        return false;
    Laying laying = {c->body, k->body, {{UNKNOWN}}};
    unsigned places = c->axis == NEAR ? 1 : k->body->count;
    for (unsigned w = 1; w <= places; w++)
        if (lies_at(&laying, 1, w))
            return true;
    return false;
}

static void offer(Building *building, Candidate c)
{
    for (unsigned i = 0; i < building->count; i++)
        if (laid_on(&c, &building->kept[i]))
            return;
    Candidate stay[MOST_STEPS];
    unsigned count = 0, steps = building->steps + c.body->count;
    for (unsigned i = 0; i < building->count; i++) {
        if (laid_on(&building->kept[i], &c))
            steps -= building->kept[i].body->count;
        else
            stay[count++] = building->kept[i];
    }
    if (steps > MOST_STEPS) {
        building->clipped = true;
        return;
    }
    stay[count++] = c;
    memcpy(building->kept, stay, count * sizeof stay[0]);
    building->count = count;
    building->steps = steps;
}

static const Body *body_of(Work *work, unsigned v, unsigned w);

static bool is_near_child(const Pattern *pattern, unsigned v, unsigned k)
{
    Step step = pattern->steps[k - 1];
    return step.parent == v && step.axis == NEAR;
}

// Collects the candidates of the pair (v, w). `own` is 1, or 0 for the roots, which are no steps.
static void build_at(Building *building, Work *work, unsigned v, unsigned w, unsigned own)
{
    const Pattern *p = work->p_on_q.laid, *q = work->p_on_q.ground;
    unsigned last_v = last_below(p, v), last_w = last_below(q, w);
    building->count = 0;
    building->steps = own;
    building->clipped = false;
    for (unsigned k = v + 1; k <= last_v; k++)
        for (unsigned m = w + 1; m <= last_w; m++) {
            const Body *body = body_of(work, k, m);
            building->clipped |= body->clipped;
            bool near = is_near_child(p, v, k) && is_near_child(q, w, m);
            offer(building, (Candidate){near ? NEAR : FAR, &body->pattern});
        }
}

static void put_kept(Pattern *pattern, unsigned parent, const Building *building)
{
    for (unsigned i = 0; i < building->count; i++)
        put_branch(pattern, parent, building->kept[i]);
}

static void make_body(Body *body, Work *work, unsigned v, unsigned w)
{
    const Pattern *p = work->p_on_q.laid, *q = work->p_on_q.ground;
    body->clipped = false;
    if (lies_at(&work->p_on_q, v, w)) {
        copy_body(&body->pattern, p, v);
    } else if (lies_at(&work->q_on_p, w, v)) {
        copy_body(&body->pattern, q, w);
    } else {
        Building building;
        uint8_t label = p->steps[v - 1].label;
        build_at(&building, work, v, w, 1);
        body->clipped = building.clipped;
        body->pattern.count = 1;
        body->pattern.steps[0] = (Step){0, NEAR, label == q->steps[w - 1].label ? label : ANY};
        put_kept(&body->pattern, 1, &building);
    }
}

static const Body *body_of(Work *work, unsigned v, unsigned w)
{
    Body *body = &work->bodies[v - 1][w - 1];
    if (!work->has[v - 1][w - 1]) {
        make_body(body, work, v, w);
        work->has[v - 1][w - 1] = true;
    }
    return body;
}

bool merge(Pattern *merged, const Pattern *p, const Pattern *q)
{
    Work work;
    Building building;
    work.p_on_q = (Laying){p, q, {{UNKNOWN}}};
    work.q_on_p = (Laying){q, p, {{UNKNOWN}}};
    if (children_lie(&work.p_on_q, 0, 0)) {
        *merged = *p;
        return false;
    }
    if (children_lie(&work.q_on_p, 0, 0)) {
        *merged = *q;
        return false;
    }
    memset(work.has, 0, sizeof work.has);
    build_at(&building, &work, 0, 0, 0);
    merged->count = 0;
    put_kept(merged, 0, &building);
    return building.clipped;
}

Merged hand_merge(const uint8_t *sheet_bytes, size_t sheet_length, uint64_t i, uint64_t j, uint8_t *out,
                  size_t out_length)
{
    Sheet sheet;
    uint8_t number = read_sheet(&sheet, sheet_bytes, sheet_length);
    if (number == DONE && (i >= sheet.count || j >= sheet.count))
        number = NOT_THERE;
    if (number != DONE)
        return (Merged){number, false, 0};
    Pattern merged;
    bool clipped = merge(&merged, &sheet.patterns[i], &sheet.patterns[j]);
    if (out_length < 1 + merged.count * sizeof(Step))
        return (Merged){NO_ROOM, false, 0};
    return (Merged){DONE, clipped, write_pattern(out, &merged)};
}
