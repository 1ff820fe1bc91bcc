// Timing: both sides in turn, in one process, the best of several rounds of each.
#include "timing.h"

enum { ROUNDS = 15, FEWEST_ROUNDS = 2 };
static const double sample = 1e6; // a sample lasts at least so many nanoseconds on the first side
static const double budget = 2e9; // past so many nanoseconds a case gets no further round

static Answer answer;

// The processor time of this process, which other work on the machine does not add to.
static double now(void)
{
    struct timespec time;
    clock_gettime(CLOCK_PROCESS_CPUTIME_ID, &time);
    return 1e9 * (double)time.tv_sec + (double)time.tv_nsec;
}

// How long a side takes to answer all questions so many times.
static double pass(const Side *side, const Case *timed, unsigned times)
{
    double began = now();
    for (unsigned t = 0; t < times; t++)
        for (unsigned i = 0; i < timed->count; i++)
            ask(&answer, side, &timed->questions[i]);
    return now() - began;
}

// How many times make a sample.
static unsigned times_for(const Case *timed)
{
    unsigned times = 1;
    while (pass(&sides[0], timed, times) < sample)
        times *= 2;
    return times;
}

// One round of a side, whose time a call is kept if it is the best so far.
static void time_round(double *best, unsigned round, const Side *side, const Case *timed, unsigned times)
{
    double took = pass(side, timed, times) / ((double)times * timed->count);
    if (round == 0 || took < *best)
        *best = took;
}

Times time_case(const Case *timed, bool beside_cells)
{
    double began = now();
    unsigned times = times_for(timed);
    Times best;
    for (unsigned round = 0; round < ROUNDS; round++) {
        if (round >= FEWEST_ROUNDS && now() - began > budget)
            break;
        for (unsigned s = 0; s < side_count; s++)
            time_round(&best.of[s], round, &sides[s], timed, times);
        if (beside_cells)
            time_round(&best.by_cells, round, &by_cells, timed, times);
    }
    return best;
}
