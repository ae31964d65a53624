/* The peaks of a response. */
#include "groups.h"

enum { RESPONSE, OUT, COUNT };

static void draw_radii(struct trial *t) {
    struct random *r = &t->random;
    int large = one_in(r, 12);
    t->radius = between(r, 1, large ? 10 : 3);
    t->window_radius = between(r, 1, large ? 8 : 3);
    t->refine_radius = between(r, 0, large ? 7 : 2);
    switch (below(r, 30)) {
    case 0: t->radius = one_in(r, 2) ? 0 : 11; break;
    case 1: t->window_radius = one_in(r, 2) ? 0 : 9; break;
    case 2: t->refine_radius = one_in(r, 2) ? 8 : SIZE_MAX; break;
    default: break;
    }
}

static float value(struct random *r, size_t kind) {
    switch (kind) {
    case 0: return (float)below(r, 5) - 1.0f;
    case 1: return one_in(r, 9) ? eighth(r, 1, 4000) : 0.0f;
    case 2: return one_in(r, 6) ? odd_float(r) : eighth(r, -8, 80);
    case 3: return any_float(r);
    default: return eighth(r, -400, 4000);
    }
}

/* Sizes with as many values, or beside them. */
static size_t draw_sizes(struct trial *t) {
    struct random *r = &t->random;
    size_t border = (t->radius + t->window_radius + t->refine_radius) % 64;
    t->width = 2 * border + below(r, 16);
    t->height = 2 * border + below(r, 16);
    if (one_in(r, 40)) t->width = 4096, t->height = between(r, 1, 11);
    if (one_in(r, 60)) t->width = between(r, 1, 4), t->height = 4097;
    if (one_in(r, 60)) t->width = t->height = (size_t)1 << 32;
    return near_len(t, t->width * t->height % 65536);
}

/* Room for the peaks there are, or a record more or less; a third of one. */
static size_t draw_room(struct trial *t, const float *response, size_t len) {
    struct random *r = &t->random;
    size_t count = 0;
    uint32_t number = chess_corners_peaks(response, len, t->width, t->height, t->radius, t->window_radius, t->refine_radius, t->limit, t->word,
                                          (float *)(void *)t->spare, 12288, &count);
    if (number != 0) count = below(r, 5);
    if (one_in(r, 16)) return 3 * count + between(r, 1, 2);
    switch (below(r, 6)) {
    case 0: return count ? 3 * count - 3 : 0;
    case 1: return 3 * count + 3 * between(r, 1, 9);
    default: return 3 * count;
    }
}

void draw_peaks(struct trial *t) {
    struct random *r = &t->random;
    size_t len, kind = below(r, 5);
    float *response;
    draw_radii(t);
    len = draw_sizes(t);
    response = lend(t, INPUT, FLOATS, len);
    for (size_t i = 0; i < len; i++) response[i] = value(r, kind);
    t->limit = one_in(r, 14) ? odd_float(r) : len && one_in(r, 3) ? response[below(r, len)] : eighth(r, -8, 16);
    t->word = (uint32_t)(one_in(r, 30) ? draw(r) : below(r, 4));
    lend(t, OUTPUT, FLOATS, draw_room(t, response, len));
    lend(t, OUTPUT, SIZES, 1);
}

uint32_t make_peaks(const struct trial *t) {
    return chess_corners_peaks(AT(float, RESPONSE), LEN(RESPONSE), t->width, t->height, t->radius, t->window_radius, t->refine_radius, t->limit, t->word,
                               AT(float, OUT), LEN(OUT), AT(size_t, COUNT));
}

size_t written_peaks(const struct trial *t, uint32_t number, size_t block) {
    return number != 0 ? 0 : block == OUT ? 3 * lent_size(t, COUNT) : LEN(block);
}
