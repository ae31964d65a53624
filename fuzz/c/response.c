/* The response, and the numbers that it shares with nobody: the old number. */
#include "groups.h"

enum { IMG, RING, OUT, OUT_WIDTH, OUT_HEIGHT };

void draw_old_number(struct trial *t) {
    t->word = one_in(&t->random, 4) ? (uint32_t)draw(&t->random) | 256 : (uint32_t)below(&t->random, 36);
}

uint32_t make_old_number(const struct trial *t) {
    return chess_corners_old_number(t->word);
}

/* One end of a region along an axis, from the first end on. */
static size_t draw_end(struct random *r, size_t from, size_t size) {
    switch (below(r, 12)) {
    case 0: return from;
    case 1: return SIZE_MAX;
    case 2: return size + 1;
    case 3: return from + 1;
    default: return size;
    }
}

static size_t clamped(size_t from, size_t to, size_t size) {
    if (from > size) from = size;
    if (to > size) to = size;
    return to > from ? to - from : 0;
}

static size_t draw_start(struct random *r, size_t size) {
    if (one_in(r, 30)) return SIZE_MAX - below(r, 3);
    return one_in(r, 3) ? below(r, size % 8192 + 2) : 0;
}

static void draw_region(struct trial *t) {
    struct random *r = &t->random;
    t->x0 = draw_start(r, t->width);
    t->y0 = draw_start(r, t->height);
    t->x1 = draw_end(r, t->x0, t->width);
    t->y1 = draw_end(r, t->y0, t->height);
}

void draw_response(struct trial *t) {
    struct random *r = &t->random;
    size_t wide, high;
    draw_image(t);
    t->radius = one_in(r, 3) ? 5 : between(r, 1, 10);
    if (one_in(r, 12)) t->radius = one_in(r, 2) ? 0 : one_in(r, 2) ? 11 : ((size_t)1 << 32) + 5;
    draw_ring(t, lend(t, INPUT, INTS, 32), t->radius);
    draw_region(t);
    wide = clamped(t->x0, t->x1, t->width);
    high = clamped(t->y0, t->y1, t->height);
    lend(t, OUTPUT, FLOATS, near_len(t, wide <= 4096 && high <= 4096 && wide * high <= 30000 ? wide * high : 0));
    lend(t, OUTPUT, SIZES, 1);
    lend(t, OUTPUT, SIZES, 1);
}

uint32_t make_response(const struct trial *t) {
    return chess_corners_response(AT(uint8_t, IMG), LEN(IMG), t->width, t->height, t->pitch, AT(int32_t, RING), t->radius, t->x0, t->y0, t->x1, t->y1,
                                  AT(float, OUT), LEN(OUT), AT(size_t, OUT_WIDTH), AT(size_t, OUT_HEIGHT));
}

uint32_t make_response_u16(const struct trial *t) {
    return chess_corners_response_u16(AT(uint16_t, IMG), LEN(IMG), t->width, t->height, t->pitch, AT(int32_t, RING), t->radius, t->x0, t->y0, t->x1,
                                      t->y1, AT(float, OUT), LEN(OUT), AT(size_t, OUT_WIDTH), AT(size_t, OUT_HEIGHT));
}
