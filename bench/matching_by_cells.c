// Matching, bottom up. cells[t][k - 1] tells whether step k holds below node t. A parent has a lower number than its
// children, so a walk down the numbers finds each row complete.
#include "by_hand.h"

// Adds to the parent's row what a node with this label contributes, given the node's own row.
static void give(const uint8_t *restrict below, uint8_t *restrict above, const Pattern *pattern, uint8_t label)
{
    uint32_t lacking = 0; // bit k: a child of step k does not hold below the node
    for (unsigned k = pattern->count; k > 0; k--) {
        Step step = pattern->steps[k - 1];
        bool holds = below[k - 1];
        bool fits = (lacking >> k & 1) == 0 && (step.label == ANY || step.label == label);
        lacking |= (uint32_t)!holds << step.parent;
        above[k - 1] |= fits || (step.axis == FAR && holds);
    }
}

static bool root_steps_hold(const uint8_t *below_top, const Pattern *pattern)
{
    for (unsigned k = 1; k <= pattern->count; k++)
        if (pattern->steps[k - 1].parent == 0 && !below_top[k - 1])
            return false;
    return true;
}

bool satisfies_by_cells(const Document *document, const Pattern *pattern)
{
    uint8_t cells[MOST_NODES + 1][MOST_STEPS];
    memset(cells, 0, (document->count + 1) * sizeof cells[0]);
    for (unsigned u = document->count; u > 0; u--) {
        Node node = document->nodes[u - 1];
        give(cells[u], cells[node.parent], pattern, node.label);
    }
    return root_steps_hold(cells[0], pattern);
}
