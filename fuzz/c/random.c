#include "random.h"

#include <string.h>

/* The finisher of splitmix64. */
static uint64_t mixed(uint64_t z) {
    z = (z ^ (z >> 30)) * UINT64_C(0xBF58476D1CE4E5B9);
    z = (z ^ (z >> 27)) * UINT64_C(0x94D049BB133111EB);
    return z ^ (z >> 31);
}

struct random random_of(uint64_t seed, uint64_t number) {
    struct random r;
    r.state = mixed(mixed(seed) + number);
    return r;
}

uint64_t draw(struct random *r) {
    r->state += UINT64_C(0x9E3779B97F4A7C15);
    return mixed(r->state);
}

size_t below(struct random *r, size_t n) {
    return (size_t)(draw(r) % n);
}

size_t between(struct random *r, size_t least, size_t most) {
    return least + below(r, most - least + 1);
}

int one_in(struct random *r, size_t n) {
    return below(r, n) == 0;
}

static float of_bits(uint32_t bits) {
    float f;
    memcpy(&f, &bits, sizeof f);
    return f;
}

float any_float(struct random *r) {
    return of_bits((uint32_t)draw(r));
}

float odd_float(struct random *r) {
    static const uint32_t odd[] = {0x7FC00000, 0xFFC00000, 0x7F800001, 0x7F800000, 0xFF800000, 0x00000001, 0x80000001, 0x007FFFFF,
                                   0x00800000, 0x7F7FFFFF, 0xFF7FFFFF, 0x80000000, 0x4F000000, 0xCF000001, 0x5F800000};
    size_t i = below(r, sizeof odd / sizeof odd[0] + 3);
    return i < sizeof odd / sizeof odd[0] ? of_bits(odd[i]) : any_float(r);
}

float eighth(struct random *r, int least, int most) {
    return (float)(least + (int)below(r, (size_t)(most - least) + 1)) / 8.0f;
}

void any_bytes(struct random *r, void *at, size_t bytes) {
    unsigned char *to = at;
    uint64_t word;
    for (; bytes >= sizeof word; bytes -= sizeof word, to += sizeof word) {
        word = draw(r);
        memcpy(to, &word, sizeof word);
    }
    word = draw(r);
    if (bytes) memcpy(to, &word, bytes);
}
