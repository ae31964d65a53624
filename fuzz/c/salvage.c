/* Corner files: whole, cut, and with records that are no corners. */
#include "groups.h"

#include <string.h>

enum { FILE_BLOCK, OUT, FAULTS, KEPT, DROPPED };

static size_t draw_side(struct random *r) {
    static const size_t odd[] = {0, 4097, ((size_t)1 << 32) + 7, 1, 4096};
    return one_in(r, 20) ? odd[below(r, sizeof odd / sizeof odd[0])] : between(r, 1, 200);
}

static float draw_number(struct random *r, size_t side) {
    switch (below(r, 24)) {
    case 0: return odd_float(r);
    case 1: return -0.0f;
    case 2: return (float)(side % 8192) - 1.0f;
    case 3: return (float)(side % 8192) - 0.5f;
    case 4: return -0.125f;
    default: return eighth(r, -1, 8 * (int)(side % 8192));
    }
}

static void fill(struct trial *t, unsigned char *file, size_t len) {
    struct random *r = &t->random;
    if (one_in(r, 10)) {
        any_bytes(r, file, len);
        return;
    }
    for (size_t at = 0; at < len; at += 4) {
        float number = at % 12 == 8 ? eighth(r, 0, 800) : draw_number(r, at % 12 ? t->height : t->width);
        memcpy(file + at, &number, len - at < 4 ? len - at : 4);
    }
}

/* How much goes into each output; with sizes or a file that are refused, anything. */
static void wanted(struct trial *t, const unsigned char *file, size_t len, size_t *bytes, size_t *numbers) {
    uint16_t *faults = (uint16_t *)(void *)(t->spare + MOST_BYTES / 2);
    size_t kept = below(&t->random, 9), dropped = below(&t->random, 9);
    if (chess_corners_salvage(file, len, t->width, t->height, t->spare, 49152, faults, 8194, &kept, &dropped) != 0) kept = len / 12;
    *bytes = 12 * kept;
    *numbers = 2 * dropped;
}

void draw_salvage(struct trial *t) {
    struct random *r = &t->random;
    size_t len, bytes, numbers;
    unsigned char *file;
    t->width = draw_side(r);
    t->height = draw_side(r);
    len = 12 * draw_count(t, 12);
    if (one_in(r, 3)) len += between(r, 1, 11);
    file = lend(t, INPUT, BYTES, len);
    fill(t, file, len);
    wanted(t, file, len, &bytes, &numbers);
    lend(t, OUTPUT, BYTES, near_len(t, bytes));
    lend(t, OUTPUT, WORDS, near_len(t, numbers));
    lend(t, OUTPUT, SIZES, 1);
    lend(t, OUTPUT, SIZES, 1);
}

uint32_t make_salvage(const struct trial *t) {
    return chess_corners_salvage(AT(uint8_t, FILE_BLOCK), LEN(FILE_BLOCK), t->width, t->height, AT(uint8_t, OUT), LEN(OUT), AT(uint16_t, FAULTS),
                                 LEN(FAULTS), AT(size_t, KEPT), AT(size_t, DROPPED));
}

size_t written_salvage(const struct trial *t, uint32_t number, size_t block) {
    if (number != 0) return 0;
    return block == OUT ? 12 * lent_size(t, KEPT) : block == FAULTS ? 2 * lent_size(t, DROPPED) : LEN(block);
}
