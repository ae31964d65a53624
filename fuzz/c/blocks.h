/* What is lent to a call: blocks of exactly the lent length. Where they stand during a call is the ground's matter, of which there are two:
 * blocks_malloc.c, for the address sanitizer and valgrind, and blocks_guard.c, between pages that nobody may touch. */
#ifndef FUZZ_BLOCKS_H
#define FUZZ_BLOCKS_H

#include <stddef.h>

enum { MOST_BLOCKS = 8, MOST_BYTES = 1 << 18 };

enum kind { BYTES, WORDS, INTS, FLOATS, SIZES };

enum role {
    INPUT,   /* read alone */
    CHANGED, /* read and written */
    OUTPUT,  /* written alone */
    SCRATCH  /* written alone, and in part */
};

struct block {
    enum kind kind;
    enum role role;
    size_t len;            /* elements */
    size_t written;        /* how many of them, from the front, the call may have written */
    unsigned char *before; /* contents before the call */
    unsigned char *after;  /* contents after the first of two calls */
    unsigned char *at;     /* where it stands during a call */
};

size_t size_of(enum kind kind);
size_t bytes_of(const struct block *b);

/* ---- the ground */
struct ground;

struct ground *ground_made(void);
void ground_lend(struct ground *g, struct block *blocks, size_t count, int turn); /* puts the contents there */
void ground_regain(struct ground *g, struct block *blocks, size_t count);         /* all may be read again */
void ground_clear(struct ground *g, struct block *blocks, size_t count);
void ground_ended(struct ground *g);

#endif
