// Matching, bottom up. Bit k - 1 of words[u] tells whether step k holds below node u. A parent has a lower number than
// its children, so a walk down the numbers finds each word complete.
#include "by_hand.h"

// From a table: of `1 << k` the compiler makes ragged vectors.
static const uint16_t bits[MOST_STEPS] = {1,   2,   4,    8,    16,   32,   64,    128,
                                          256, 512, 1024, 2048, 4096, 8192, 16384, 32768};

// A pattern as a node's turn reads it. Step k stands at k - 1, but in `children` at k, where the root stands at 0.
typedef struct {
    uint16_t labels[MOST_STEPS];
    uint16_t cares[MOST_STEPS]; // 255, or 0 where the label is any
    uint16_t own[MOST_STEPS];   // the step's bit, or 0 where there is no such step
    uint16_t children[MOST_STEPS + 1];
    uint16_t far;
} Masks;

static void make_masks(Masks *masks, const Pattern *pattern)
{
    uint16_t all = (uint16_t)((1u << pattern->count) - 1), far = 0;
    memset(masks, 0, sizeof *masks);
    for (unsigned k = 0; k < pattern->count; k++) {
        Step step = pattern->steps[k];
        masks->labels[k] = step.label;
        masks->cares[k] = step.label == ANY ? 0 : 255;
        masks->children[step.parent] |= bits[k];
        far |= step.axis == FAR ? bits[k] : 0;
    }
    masks->far = far;
    for (unsigned k = 0; k < MOST_STEPS; k++)
        masks->own[k] = bits[k] & all;
}

// What a node with this word and label gives to its parent. Nothing branches, and steps that are not there have their
// turn too, so that the compiler makes vectors of the loop.
static uint16_t given(const Masks *masks, uint16_t word, uint16_t label)
{
    uint16_t gives = word & masks->far;
    for (unsigned k = 0; k < MOST_STEPS; k++) {
        uint16_t children = masks->children[k + 1];
        bool fits = masks->labels[k] == (label & masks->cares[k]), has_all = (word & children) == children;
        gives |= (fits & has_all) ? masks->own[k] : 0;
    }
    return gives;
}

bool satisfies(const Document *document, const Pattern *pattern)
{
    Masks masks;
    uint16_t words[MOST_NODES + 1];
    make_masks(&masks, pattern);
    memset(words, 0, (document->count + 1) * sizeof words[0]);
    for (unsigned u = document->count; u > 0; u--) {
        Node node = document->nodes[u - 1];
        words[node.parent] |= given(&masks, words[u], node.label);
    }
    return (words[0] & masks.children[0]) == masks.children[0];
}
