#include "blocks.h"

size_t size_of(enum kind kind) {
    static const size_t sizes[] = {1, 2, 4, 4, sizeof(size_t)};
    return sizes[kind];
}

size_t bytes_of(const struct block *b) {
    return b->len * size_of(b->kind);
}
