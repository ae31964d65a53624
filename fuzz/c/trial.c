#include "trial.h"

#include <stdio.h>
#include <stdlib.h>
#include <string.h>

void *lend(struct trial *t, enum role role, enum kind kind, size_t len) {
    struct block *b = &t->block[t->blocks];
    if (t->blocks == MOST_BLOCKS || len > MOST_BYTES / size_of(kind)) {
        printf("fuzz: FAILED: %s asks for a block that is too large\n", t->call->name);
        exit(1);
    }
    t->blocks++;
    b->role = role;
    b->kind = kind;
    b->len = len;
    if (role != INPUT) any_bytes(&t->random, b->before, bytes_of(b));
    return b->before;
}

size_t lent_size(const struct trial *t, size_t block) {
    size_t size;
    memcpy(&size, t->block[block].at, sizeof size);
    return size;
}

size_t near_len(struct trial *t, size_t len) {
    if (!one_in(&t->random, 10)) return len;
    switch (below(&t->random, 4)) {
    case 0: return len + 1;
    case 1: return 0;
    default: return len ? len - 1 : 1;
    }
}

size_t whole_or_none(const struct trial *t, uint32_t number, size_t block) {
    return number == 0 ? t->block[block].len : 0;
}

size_t draw_count(struct trial *t, size_t usual) {
    if (one_in(&t->random, 30)) return 4097;
    if (one_in(&t->random, 200)) return 4095 + below(&t->random, 2);
    return below(&t->random, usual + 1);
}
