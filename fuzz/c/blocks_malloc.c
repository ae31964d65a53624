/* The ground of malloc: each block is one of its own, of exactly its bytes, made anew for every call. With FUZZ_MEMCHECK valgrind is told that nobody
 * knows what an output holds before the call, and asked whether all that the call says to have written is known afterwards. */
#include "blocks.h"

#include <stdio.h>
#include <stdlib.h>
#include <string.h>

#ifdef FUZZ_MEMCHECK
#include <valgrind/memcheck.h>
#endif

/* Nothing is kept from call to call; the one byte makes grounds of threads differ. */
struct ground {
    char unused;
};

static void *memory(size_t bytes) {
    void *at = malloc(bytes);
    if (!at && bytes) {
        printf("fuzz: FAILED: no memory\n");
        exit(1);
    }
    return at;
}

struct ground *ground_made(void) {
    return memory(sizeof(struct ground));
}

static void hide(struct block *b) {
#ifdef FUZZ_MEMCHECK
    if (b->role == OUTPUT || b->role == SCRATCH) VALGRIND_MAKE_MEM_UNDEFINED(b->at, bytes_of(b));
#else
    (void)b;
#endif
}

static void show(struct block *b) {
#ifdef FUZZ_MEMCHECK
    if (b->role == OUTPUT) VALGRIND_CHECK_MEM_IS_DEFINED(b->at, b->written * size_of(b->kind));
    VALGRIND_MAKE_MEM_DEFINED(b->at, bytes_of(b));
#else
    (void)b;
#endif
}

void ground_lend(struct ground *g, struct block *blocks, size_t count, int turn) {
    (void)g;
    (void)turn;
    for (size_t i = 0; i < count; i++) {
        struct block *b = &blocks[i];
        b->at = memory(bytes_of(b));
        if (b->len) memcpy(b->at, b->before, bytes_of(b));
        hide(b);
    }
}

void ground_regain(struct ground *g, struct block *blocks, size_t count) {
    (void)g;
    for (size_t i = 0; i < count; i++) show(&blocks[i]);
}

void ground_clear(struct ground *g, struct block *blocks, size_t count) {
    (void)g;
    for (size_t i = 0; i < count; i++) free(blocks[i].at);
}

void ground_ended(struct ground *g) {
    free(g);
}
