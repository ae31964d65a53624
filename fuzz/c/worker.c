#include "worker.h"

#include <stdio.h>
#include <stdlib.h>
#include <string.h>

static const struct worker *watched;

void watch(const struct worker *w) {
    watched = w;
}

void say_where(void) {
    const struct worker *w = watched;
    if (!w || !w->trial.call) return;
    printf("fuzz: seed %llu, case %llu: %s\n", (unsigned long long)w->seed, (unsigned long long)w->number, w->trial.call->name);
    fflush(stdout);
}

static void failed(const struct worker *w, const char *what, uint32_t number, size_t block) {
    printf("fuzz: FAILED: seed %llu, case %llu: %s answers %lu: %s (block %lu)\n", (unsigned long long)w->seed, (unsigned long long)w->number,
           w->trial.call->name, (unsigned long)number, what, (unsigned long)block);
    exit(1);
}

static void *memory(size_t bytes) {
    void *at = malloc(bytes);
    if (!at) {
        printf("fuzz: FAILED: no memory\n");
        exit(1);
    }
    return at;
}

struct worker *worker_made(uint64_t seed) {
    struct worker *w = memory(sizeof *w);
    memset(w, 0, sizeof *w);
    w->seed = seed;
    w->ground = ground_made();
    w->trial.spare = memory(MOST_BYTES);
    for (size_t i = 0; i < MOST_BLOCKS; i++) {
        w->trial.block[i].before = memory(MOST_BYTES);
        w->trial.block[i].after = memory(MOST_BYTES);
    }
    return w;
}

void worker_ended(struct worker *w) {
    for (size_t i = 0; i < MOST_BLOCKS; i++) {
        free(w->trial.block[i].before);
        free(w->trial.block[i].after);
    }
    free(w->trial.spare);
    ground_ended(w->ground);
    free(w);
}

/* ---- one call */
static size_t slot_of(uint32_t number) {
    return number < OTHER_NUMBER ? number : OTHER_NUMBER;
}

static int differ(const unsigned char *a, const unsigned char *b, size_t bytes) {
    return bytes && memcmp(a, b, bytes) != 0;
}

/* What a call does not write stays. */
static void hold_stays(struct worker *w, uint32_t number) {
    const struct trial *t = &w->trial;
    for (size_t i = 0; i < t->blocks; i++) {
        const struct block *b = &t->block[i];
        size_t from = b->written * size_of(b->kind);
        if (b->written > b->len) failed(w, "it says to have written more than is lent", number, i);
        if (differ(b->at + from, b->before + from, bytes_of(b) - from)) failed(w, "it changed what stays", number, i);
    }
}

static uint32_t one_call(struct worker *w, int turn) {
    struct trial *t = &w->trial;
    uint32_t number;
    ground_lend(w->ground, t->block, t->blocks, turn);
    number = t->call->make(t);
    if (!(t->call->numbers & NUMBER(slot_of(number)))) failed(w, "no number that is named for it", number, 0);
    for (size_t i = 0; i < t->blocks; i++) t->block[i].written = t->block[i].role == INPUT ? 0 : t->call->written(t, number, i);
    ground_regain(w->ground, t->block, t->blocks);
    hold_stays(w, number);
    return number;
}

/* ---- the digest */
static uint64_t stirred(uint64_t digest, uint64_t word) {
    digest = (digest ^ word) * UINT64_C(0x9E3779B97F4A7C15);
    return digest ^ (digest >> 32);
}

/* Every NaN is one. */
static uint64_t of_floats(uint64_t digest, const unsigned char *at, size_t len) {
    for (size_t i = 0; i < len; i++) {
        uint32_t bits;
        memcpy(&bits, at + 4 * i, sizeof bits);
        digest = stirred(digest, (bits & 0x7FFFFFFF) > 0x7F800000 ? 0x7FC00000 : bits);
    }
    return digest;
}

static uint64_t of_bytes(uint64_t digest, const unsigned char *at, size_t bytes) {
    for (size_t i = 0; i < bytes; i += 8) {
        uint64_t word = 0;
        memcpy(&word, at + i, bytes - i < 8 ? bytes - i : 8);
        digest = stirred(digest, word);
    }
    return digest;
}

static uint64_t digest_of(const struct worker *w, uint32_t number) {
    const struct trial *t = &w->trial;
    uint64_t digest = stirred(stirred(w->number, number), t->blocks);
    for (size_t i = 0; i < t->blocks; i++) {
        const struct block *b = &t->block[i];
        if (b->role == INPUT) continue;
        digest = b->kind == FLOATS ? of_floats(digest, b->after, b->len) : of_bytes(digest, b->after, bytes_of(b));
    }
    return digest;
}

/* ---- one case: the call twice, on the same inputs in other places */
static void keep(struct trial *t) {
    for (size_t i = 0; i < t->blocks; i++)
        if (t->block[i].len) memcpy(t->block[i].after, t->block[i].at, bytes_of(&t->block[i]));
}

static void hold_same(struct worker *w, uint32_t number, uint32_t first) {
    const struct trial *t = &w->trial;
    if (number != first) failed(w, "another number the second time", number, 0);
    for (size_t i = 0; i < t->blocks; i++)
        if (differ(t->block[i].at, t->block[i].after, bytes_of(&t->block[i]))) failed(w, "other bits the second time", number, i);
}

void worker_case(struct worker *w, uint64_t number) {
    struct trial *t = &w->trial;
    size_t which = (size_t)(number % calls_count);
    uint32_t first, second;
    w->number = number;
    t->call = &calls[which];
    t->random = random_of(w->seed, number);
    t->blocks = 0;
    t->call->draw(t);
    first = one_call(w, 0);
    keep(t);
    ground_clear(w->ground, t->block, t->blocks);
    second = one_call(w, 1);
    hold_same(w, second, first);
    ground_clear(w->ground, t->block, t->blocks);
    w->tally.met[which][slot_of(first)]++;
    w->tally.cases++;
    w->tally.digest += digest_of(w, first);
}

/* ---- the table */
static int print_call(const struct tally *t, size_t which, int table) {
    const struct call *call = &calls[which];
    int missing = 0;
    if (table) printf("%s:", call->name);
    for (size_t n = 0; n <= OTHER_NUMBER; n++) {
        if (!(call->numbers & NUMBER(n))) continue;
        if (table && n == OTHER_NUMBER) printf(" other %llu", (unsigned long long)t->met[which][n]);
        else if (table) printf(" %lu %llu,", (unsigned long)n, (unsigned long long)t->met[which][n]);
        missing += t->met[which][n] == 0;
        if (!table && t->met[which][n] == 0) printf("fuzz: %s: number %lu was not met\n", call->name, (unsigned long)n);
    }
    if (table) printf("\n");
    return missing;
}

int tally_print(const struct tally *t, int table) {
    int missing = 0;
    for (size_t i = 0; i < calls_count; i++) missing += print_call(t, i, table);
    return missing;
}
