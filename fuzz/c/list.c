/* Lists of corners refined, with one try and with two. */
#include "groups.h"

enum { IMG, CORNERS, OUT, COUNT };
enum { PASSES = 3, PASSES_COUNT };
enum { COLUMNS = 1, SECOND_COLUMNS, WITH_CORNERS, WITH_OUT, WITH_PASSES, WITH_COUNT };

/* Lends the list; a third of a corner more or less one in sixteen times. */
static size_t draw_corners(struct trial *t) {
    struct random *r = &t->random;
    size_t count = draw_count(t, 12), len = 3 * count;
    float *corners;
    if (one_in(r, 16)) len += between(r, 1, 2);
    corners = lend(t, INPUT, FLOATS, len);
    for (size_t i = 0; i + 2 < len; i += 3) {
        draw_seed(t, &corners[i], &corners[i + 1]);
        corners[i + 2] = one_in(r, 8) ? odd_float(r) : eighth(r, -80, 8000);
    }
    for (size_t i = len / 3 * 3; i < len; i++) corners[i] = odd_float(r);
    return len;
}

/* As long, longer or, to be refused, shorter. */
static size_t draw_room(struct trial *t, size_t len) {
    switch (below(&t->random, 12)) {
    case 0: return len ? len - 1 : 0;
    case 1: return len + between(&t->random, 1, 9);
    case 2: return 0;
    default: return len;
    }
}

void draw_refine_list(struct trial *t) {
    size_t len;
    draw_image(t);
    draw_settings(t, &t->first);
    len = draw_corners(t);
    lend(t, OUTPUT, FLOATS, draw_room(t, len));
    lend(t, OUTPUT, SIZES, 1);
}

static void draw_two_tries(struct trial *t, int lent) {
    size_t len;
    draw_image(t);
    draw_settings(t, &t->first);
    draw_settings(t, &t->second);
    if (lent) {
        draw_columns(t, t->first.radius, lend(t, INPUT, FLOATS, 1125), NULL);
        draw_columns(t, t->second.radius, lend(t, INPUT, FLOATS, 1125), NULL);
    }
    len = draw_corners(t);
    lend(t, OUTPUT, FLOATS, draw_room(t, len));
    lend(t, OUTPUT, BYTES, draw_room(t, len / 3));
    lend(t, OUTPUT, SIZES, 1);
}

void draw_fallback(struct trial *t) {
    draw_two_tries(t, 0);
}

void draw_fallback_with(struct trial *t) {
    draw_two_tries(t, 1);
}

#define IMAGE(type) AT(type, IMG), LEN(IMG), t->width, t->height, t->pitch
#define SETTINGS(s) t->s.radius, t->s.det_margin, t->s.max_offset, t->s.min_abs_det
#define BUFFER(type, index) AT(type, index), LEN(index)
#define ONE_TRY BUFFER(float, CORNERS), BUFFER(float, OUT), AT(size_t, COUNT)
#define TWO_TRIES BUFFER(float, CORNERS), BUFFER(float, OUT), BUFFER(uint8_t, PASSES), AT(size_t, PASSES_COUNT)
#define OPERATORS AT(float, COLUMNS), AT(float, SECOND_COLUMNS)
#define TWO_TRIES_WITH BUFFER(float, WITH_CORNERS), BUFFER(float, WITH_OUT), BUFFER(uint8_t, WITH_PASSES), AT(size_t, WITH_COUNT)

uint32_t make_refine_list(const struct trial *t) {
    return chess_corners_refine_list(IMAGE(uint8_t), SETTINGS(first), ONE_TRY);
}

uint32_t make_refine_list_u16(const struct trial *t) {
    return chess_corners_refine_list_u16(IMAGE(uint16_t), SETTINGS(first), ONE_TRY);
}

uint32_t make_fallback(const struct trial *t) {
    return chess_corners_refine_list_fallback(IMAGE(uint8_t), SETTINGS(first), SETTINGS(second), TWO_TRIES);
}

uint32_t make_fallback_u16(const struct trial *t) {
    return chess_corners_refine_list_fallback_u16(IMAGE(uint16_t), SETTINGS(first), SETTINGS(second), TWO_TRIES);
}

uint32_t make_fallback_with(const struct trial *t) {
    return chess_corners_refine_list_fallback_with(IMAGE(uint8_t), SETTINGS(first), SETTINGS(second), OPERATORS, TWO_TRIES_WITH);
}

uint32_t make_fallback_with_u16(const struct trial *t) {
    return chess_corners_refine_list_fallback_with_u16(IMAGE(uint16_t), SETTINGS(first), SETTINGS(second), OPERATORS, TWO_TRIES_WITH);
}

/* Three numbers and a pass byte for each record. */
static size_t written_list(const struct trial *t, uint32_t number, size_t block, size_t out, size_t count) {
    if (number != 0 || block < out) return 0;
    return block == count ? 1 : block == out ? 3 * lent_size(t, count) : lent_size(t, count);
}

size_t written_refine_list(const struct trial *t, uint32_t number, size_t block) {
    return written_list(t, number, block, OUT, COUNT);
}

size_t written_fallback(const struct trial *t, uint32_t number, size_t block) {
    return written_list(t, number, block, OUT, PASSES_COUNT);
}

size_t written_fallback_with(const struct trial *t, uint32_t number, size_t block) {
    return written_list(t, number, block, WITH_OUT, WITH_COUNT);
}
