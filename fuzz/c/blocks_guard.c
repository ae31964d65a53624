/* The ground of guard pages: each block stands between pages that nobody may touch. In the first turn it ends where those behind it begin, in the second
 * it begins where those before it end. What is only read lies in memory that cannot be written during the call. */
#define _DEFAULT_SOURCE
#include "blocks.h"
#include "worker.h"

#include <signal.h>
#include <stdio.h>
#include <stdlib.h>
#include <string.h>
#include <sys/mman.h>
#include <unistd.h>

enum { GUARD = 1 << 20, WHOLE = GUARD + MOST_BYTES + GUARD };

struct ground {
    unsigned char *slot[MOST_BLOCKS]; /* the first byte that may be touched */
};

static void must(int holds, const char *what) {
    if (holds) return;
    printf("fuzz: FAILED: %s\n", what);
    exit(1);
}

/* The program is over: what the words need may be asked of the library here, since the fault is none of its own. */
static void touched(int signal_number) {
    (void)signal_number;
    printf("fuzz: FAILED: a page that nobody may touch, or a write to what is only read\n");
    say_where();
    fflush(stdout);
    _exit(1);
}

struct ground *ground_made(void) {
    struct ground *g = malloc(sizeof *g);
    must(g != NULL, "no memory");
    for (size_t i = 0; i < MOST_BLOCKS; i++) {
        unsigned char *whole = mmap(NULL, WHOLE, PROT_NONE, MAP_PRIVATE | MAP_ANONYMOUS, -1, 0);
        must(whole != MAP_FAILED, "no pages");
        g->slot[i] = whole + GUARD;
        must(mprotect(g->slot[i], MOST_BYTES, PROT_READ | PROT_WRITE) == 0, "no page to write to");
    }
    signal(SIGSEGV, touched);
    signal(SIGBUS, touched);
    return g;
}

/* A block of no elements stands where no byte may be touched. */
static unsigned char *place(unsigned char *slot, const struct block *b, int turn) {
    if (b->len == 0) return turn ? slot - size_of(b->kind) : slot + MOST_BYTES;
    return turn ? slot : slot + MOST_BYTES - bytes_of(b);
}

/* The pages of a slot that the block is on. */
static void protect(unsigned char *slot, const struct block *b, int how) {
    size_t page = (size_t)sysconf(_SC_PAGESIZE);
    size_t first, last;
    if (b->len == 0) return;
    first = (size_t)(b->at - slot) / page * page;
    last = (size_t)(b->at - slot) + bytes_of(b);
    must(mprotect(slot + first, last - first, how) == 0, "a page stays as it was");
}

void ground_lend(struct ground *g, struct block *blocks, size_t count, int turn) {
    for (size_t i = 0; i < count; i++) {
        struct block *b = &blocks[i];
        b->at = place(g->slot[i], b, turn);
        if (b->len) memcpy(b->at, b->before, bytes_of(b));
        if (b->role == INPUT) protect(g->slot[i], b, PROT_READ);
    }
}

void ground_regain(struct ground *g, struct block *blocks, size_t count) {
    for (size_t i = 0; i < count; i++)
        if (blocks[i].role == INPUT) protect(g->slot[i], &blocks[i], PROT_READ | PROT_WRITE);
}

void ground_clear(struct ground *g, struct block *blocks, size_t count) {
    (void)g;
    (void)blocks;
    (void)count;
}

void ground_ended(struct ground *g) {
    for (size_t i = 0; i < MOST_BLOCKS; i++) munmap(g->slot[i] - GUARD, WHOLE);
    free(g);
}
