/* Cases made one after the other, and what was seen of them. */
#ifndef FUZZ_WORKER_H
#define FUZZ_WORKER_H

#include "trial.h"

enum { MOST_CALLS = 64 };

struct tally {
    uint64_t met[MOST_CALLS][OTHER_NUMBER + 1]; /* by call and number */
    uint64_t cases;
    uint64_t digest; /* of all answers; the order of the cases is nothing to it */
};

struct worker {
    uint64_t seed, number; /* of the run, and of the case at hand */
    struct trial trial;
    struct ground *ground;
    struct tally tally;
};

struct worker *worker_made(uint64_t seed);
void worker_case(struct worker *w, uint64_t number); /* ends the program where something does not hold */
void worker_ended(struct worker *w);

/* Says at which case the worker is that is watched. */
void watch(const struct worker *w);
void say_where(void);

int tally_print(const struct tally *t, int table); /* how many of the named numbers were not met */

#endif
