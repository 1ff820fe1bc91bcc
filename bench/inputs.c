// Random sheets and documents.
#include "inputs.h"

static uint64_t state;

void start_random(uint64_t seed)
{
    state = seed;
}

uint64_t random_place(void)
{
    return state;
}

// splitmix64
static uint64_t random_bits(void)
{
    uint64_t x = state += 0x9e3779b97f4a7c15;
    x = (x ^ x >> 30) * 0xbf58476d1ce4e5b9;
    x = (x ^ x >> 27) * 0x94d049bb133111eb;
    return x ^ x >> 31;
}

static unsigned below(unsigned n)
{
    return (unsigned)((random_bits() >> 32) * n >> 32);
}

static bool chance(unsigned in_a_hundred)
{
    return below(100) < in_a_hundred;
}

// Labels of a letter and two digits.
static void put_labels(unsigned count, char letter)
{
    put(count);
    for (unsigned i = 0; i < count; i++) {
        put(3);
        put((uint8_t)letter);
        put('0' + i / 16);
        put('0' + i % 16);
    }
}

// One of the steps that the step after `last` may hang on, the root among them.
static unsigned random_parent(const uint8_t *parents, unsigned last)
{
    unsigned depth = 0;
    for (unsigned k = last; k != 0; k = parents[k])
        depth++;
    unsigned parent = last;
    for (unsigned up = below(depth + 1); up > 0; up--)
        parent = parents[parent];
    return parent;
}

// The steps of a pattern, numbered from 1.
typedef struct {
    unsigned count;
    uint8_t parent[17], axis[17], label[17];
} Steps;

static Steps random_steps(unsigned labels, Shape shape)
{
    Steps steps = {.count = shape.steps};
    bool near_root = false;
    for (unsigned k = 1; k <= shape.steps; k++) {
        unsigned parent = shape.chain ? k - 1 : random_parent(steps.parent, k - 1);
        bool far = chance(shape.far) || (parent == 0 && near_root);
        near_root |= parent == 0 && !far;
        steps.parent[k] = (uint8_t)parent;
        steps.axis[k] = far;
        steps.label[k] = (uint8_t)(chance(shape.any) ? 0 : 1 + below(labels));
    }
    return steps;
}

static Steps loosened(Steps steps)
{
    for (unsigned k = 1; k <= steps.count; k++) {
        if (chance(50))
            steps.axis[k] = 1;
        if (chance(50))
            steps.label[k] = 0;
    }
    return steps;
}

static void put_steps(Steps steps)
{
    put(steps.count);
    for (unsigned k = 1; k <= steps.count; k++) {
        put(steps.parent[k]);
        put(steps.axis[k]);
        put(steps.label[k]);
    }
}

Part random_sheet(unsigned labels, unsigned patterns, Shape shape)
{
    begin_part();
    put_labels(labels, 'a');
    put(patterns);
    for (unsigned i = 0; i < patterns; i++)
        put_steps(random_steps(labels, shape));
    return end_part();
}

Part long_label_sheet(Lengths lengths, unsigned labels, Shape shape)
{
    begin_part();
    put(labels);
    for (unsigned i = 0; i < labels; i++) {
        unsigned length = lengths.shortest + below(lengths.longest + 1 - lengths.shortest);
        put(length);
        for (unsigned k = 2; k < length; k++)
            put('a');
        put('0' + i / 16);
        put('0' + i % 16);
    }
    put(1);
    put_steps(random_steps(labels, shape));
    return end_part();
}

Part covered_sheet(unsigned labels, Shape shape)
{
    Steps steps = random_steps(labels, shape);
    begin_part();
    put_labels(labels, 'a');
    put(2);
    put_steps(loosened(steps));
    put_steps(steps);
    return end_part();
}

static void put_node(unsigned u, unsigned label)
{
    put_two(u == 1 ? 0 : 1 + below(u - 1));
    put(label);
}

Part random_document(unsigned labels, unsigned nodes)
{
    begin_part();
    put_labels(2, 'x');
    put_two(nodes);
    for (unsigned u = 1; u <= nodes; u++)
        put_node(u, 1 + below(labels + 2));
    return end_part();
}

static unsigned smaller(unsigned a, unsigned b)
{
    return a < b ? a : b;
}

static unsigned root_rounded_up(unsigned n)
{
    unsigned root = 0;
    while (root * root < n)
        root++;
    return root;
}

// The node that node u hangs on; u is not the first.
static unsigned node_above(unsigned u, unsigned nodes, Hanging hanging)
{
    unsigned last = u - 1;
    if (hanging == WIDE)
        return 1 + below(smaller(last, root_rounded_up(nodes)));
    if (hanging == DEEP)
        return last - below(smaller(last, 4));
    return last;
}

Part hung_document(unsigned labels, unsigned nodes, Hanging hanging)
{
    begin_part();
    put_labels(2, 'x');
    put_two(nodes);
    for (unsigned u = 1; u <= nodes; u++) {
        put_two(u == 1 ? 0 : node_above(u, nodes, hanging));
        put(1 + below(labels + 2));
    }
    return end_part();
}

static void put_family_pattern(unsigned family, bool star)
{
    unsigned first = 1 + FAMILIES + (star ? CHAIN_PARTS : 0), parts = star ? STAR_PARTS : CHAIN_PARTS;
    put(4);
    put(0);
    put(1);
    put(family);
    for (unsigned k = 1; k <= 3; k++) {
        put(star ? 1 : k);
        put(0);
        put(first + below(parts));
    }
}

Part family_sheet(unsigned members_of_each)
{
    begin_part();
    put_labels(FAMILY_LABELS, 'a');
    put(FAMILIES * members_of_each);
    for (unsigned family = 1; family <= FAMILIES; family++)
        for (unsigned i = 0; i < members_of_each; i++)
            put_family_pattern(family, i % 2 == 1);
    return end_part();
}

// A part, or a label of the document's own.
static unsigned label_of_no_family(void)
{
    return 1 + FAMILIES + below(FAMILY_LABELS - FAMILIES + 2);
}

// No node has a family's label, but for one of the first four in one document of four.
Part family_document(unsigned nodes)
{
    unsigned family = 1 + below(FAMILIES), at = chance(25) ? 1 + below(4) : 0;
    begin_part();
    put_labels(2, 'x');
    put_two(nodes);
    for (unsigned u = 1; u <= nodes; u++)
        put_node(u, u == at ? family : label_of_no_family());
    return end_part();
}

// Nodes hang on those before them, so that nothing hangs on the pattern's: they are the last.
Part planted_document(unsigned nodes, const Pattern *pattern)
{
    unsigned before = nodes - pattern->count, own = FAMILY_LABELS + 1;
    begin_part();
    put_labels(2, 'x');
    put_two(nodes);
    for (unsigned u = 1; u <= before; u++)
        put_node(u, label_of_no_family());
    for (unsigned k = 1; k <= pattern->count; k++) {
        Step step = pattern->steps[k - 1];
        put_two(step.parent == 0 ? 1 + below(before) : before + step.parent);
        put(step.label == ANY ? own : step.label);
    }
    return end_part();
}
