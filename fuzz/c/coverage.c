/* The four calls that count corners by tiles. */
#include "groups.h"

#include <string.h>

enum { LIST, COUNTS, COUNT };

static size_t draw_side(struct random *r) {
    static const size_t odd[] = {0, 4097, ((size_t)1 << 32) + 8, 1, 4096};
    return one_in(r, 20) ? odd[below(r, sizeof odd / sizeof odd[0])] : between(r, 1, 80);
}

static float draw_place(struct random *r, size_t side) {
    switch (below(r, 12)) {
    case 0: return odd_float(r);
    case 1: return -0.0f;
    case 2: return (float)(side % 8192) - 0.5f;
    case 3: return (float)(side % 8192);
    default: return eighth(r, -4, 8 * (int)(side % 8192));
    }
}

static void draw_corner(struct trial *t, float *x, float *y, float *strength) {
    *x = draw_place(&t->random, t->width);
    *y = draw_place(&t->random, t->height);
    *strength = odd_float(&t->random);
}

static size_t draw_how_many(struct random *r) {
    static const size_t odd[] = {4095, 4096, 4097, ((size_t)1 << 32) + 1, SIZE_MAX, 0};
    return one_in(r, 8) ? odd[below(r, sizeof odd / sizeof odd[0])] : below(r, 30);
}

/* A list that holds anything behind its corners, and behind the first thirty also where it has more. */
static void draw_list(struct trial *t, enum role list_role, enum role counts_role) {
    struct random *r = &t->random;
    float *list;
    uint16_t *counts;
    t->width = draw_side(r);
    t->height = draw_side(r);
    t->count = draw_how_many(r);
    list = lend(t, list_role, FLOATS, 12288);
    any_bytes(r, list, 12288 * sizeof *list);
    for (size_t i = 0; i < t->count && i < 30; i++) draw_corner(t, &list[3 * i], &list[3 * i + 1], &list[3 * i + 2]);
    counts = lend(t, counts_role, WORDS, 65);
    for (size_t i = 0; i < 65; i++)
        if (one_in(r, 2)) counts[i] = (uint16_t)(one_in(r, 2) ? 65535 : below(r, 3));
}

static void draw_which(struct trial *t) {
    struct random *r = &t->random;
    size_t most = t->count <= 4096 ? t->count : 4096;
    t->number = one_in(r, 12) ? SIZE_MAX : below(r, most + 1);
    if (most && one_in(r, 8)) t->number = most - 1;
}

static void lend_count(struct trial *t) {
    memcpy(lend(t, CHANGED, SIZES, 1), &t->count, sizeof t->count);
}

void draw_coverage(struct trial *t) {
    draw_list(t, INPUT, OUTPUT);
}

void draw_coverage_add(struct trial *t) {
    draw_list(t, CHANGED, CHANGED);
    lend_count(t);
    draw_corner(t, &t->x, &t->y, &t->strength);
}

void draw_coverage_replace(struct trial *t) {
    draw_list(t, CHANGED, CHANGED);
    draw_which(t);
    draw_corner(t, &t->x, &t->y, &t->strength);
}

void draw_coverage_drop(struct trial *t) {
    draw_list(t, CHANGED, CHANGED);
    lend_count(t);
    draw_which(t);
}

uint32_t make_coverage(const struct trial *t) {
    return chess_corners_coverage(t->width, t->height, AT(float, LIST), t->count, AT(uint16_t, COUNTS));
}

uint32_t make_coverage_add(const struct trial *t) {
    return chess_corners_coverage_add(t->width, t->height, AT(float, LIST), AT(size_t, COUNT), AT(uint16_t, COUNTS), t->x, t->y, t->strength);
}

uint32_t make_coverage_replace(const struct trial *t) {
    return chess_corners_coverage_replace(t->width, t->height, AT(float, LIST), t->count, AT(uint16_t, COUNTS), t->number, t->x, t->y, t->strength);
}

uint32_t make_coverage_drop(const struct trial *t) {
    return chess_corners_coverage_drop(t->width, t->height, AT(float, LIST), AT(size_t, COUNT), AT(uint16_t, COUNTS), t->number);
}
