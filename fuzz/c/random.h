/* Numbers drawn from a seed: the same on every processor and with every compiler, so an expression draws once or says the order. */
#ifndef FUZZ_RANDOM_H
#define FUZZ_RANDOM_H

#include <stddef.h>
#include <stdint.h>

struct random {
    uint64_t state;
};

/* The draws of one case, by the run's seed and the case's number. */
struct random random_of(uint64_t seed, uint64_t number);

uint64_t draw(struct random *r);
size_t below(struct random *r, size_t n);                  /* 0 to n - 1 */
size_t between(struct random *r, size_t least, size_t most); /* both may come */
int one_in(struct random *r, size_t n);
float any_float(struct random *r);                         /* any bits */
float odd_float(struct random *r);                         /* NaN, infinite, subnormal, at a border of the format, or any bits */
float eighth(struct random *r, int least, int most);       /* a whole number of eighths, from least to most */
void any_bytes(struct random *r, void *at, size_t bytes);

#endif
