// Covering, by functions that call each other. In preorder the steps below w are the stretch after w that ends where a
// parent is less than w, and w has a child exactly if the next step hangs on it.
#include "by_hand.h"

static bool has_child(const Pattern *pattern, unsigned w)
{
    return w < pattern->count && pattern->steps[w].parent == w;
}

bool is_starred_leaf(const Pattern *pattern, unsigned k)
{
    return pattern->steps[k - 1].label == ANY && !has_child(pattern, k);
}

// Is there a place below step w for step k?
static bool finds_place(Laying *laying, unsigned k, unsigned w)
{
    Step step = laying->laid->steps[k - 1];
    const Pattern *ground = laying->ground;
    if (is_starred_leaf(laying->laid, k))
        return has_child(ground, w);
    for (unsigned u = w + 1; u <= ground->count && ground->steps[u - 1].parent >= w; u++) {
        Step place = ground->steps[u - 1];
        if (step.axis == NEAR && (place.axis != NEAR || place.parent != w))
            continue;
        if (lies_at(laying, k, u))
            return true;
    }
    return false;
}

// Is there one for each child of step v? Both v and w may be 0, the root.
bool children_lie(Laying *laying, unsigned v, unsigned w)
{
    const Pattern *laid = laying->laid;
    for (unsigned k = v + 1; k <= laid->count && laid->steps[k - 1].parent >= v; k++)
        if (laid->steps[k - 1].parent == v && !finds_place(laying, k, w))
            return false;
    return true;
}

// Is step w a place for step v, as far as label and children go? What is found out of the children is noted.
bool lies_at(Laying *laying, unsigned v, unsigned w)
{
    uint8_t label = laying->laid->steps[v - 1].label;
    if (label != ANY && label != laying->ground->steps[w - 1].label)
        return false;
    uint8_t *note = &laying->notes[v - 1][w - 1];
    if (*note == UNKNOWN)
        *note = children_lie(laying, v, w) ? YES : NO;
    return *note == YES;
}

bool covers(const Pattern *a, const Pattern *b)
{
    Laying laying = {a, b, {{UNKNOWN}}};
    return children_lie(&laying, 0, 0);
}

Asked hand_covers(const uint8_t *sheet_bytes, size_t sheet_length, uint64_t i, uint64_t j)
{
    Sheet sheet;
    uint8_t number = read_sheet(&sheet, sheet_bytes, sheet_length);
    if (number == DONE && (i >= sheet.count || j >= sheet.count))
        number = NOT_THERE;
    if (number != DONE)
        return (Asked){number, false};
    return (Asked){DONE, covers(&sheet.patterns[i], &sheet.patterns[j])};
}
