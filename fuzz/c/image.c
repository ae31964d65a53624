/* Images of bytes and of words with corners, noise and borders, and what comes with them: settings, seeds, rings, operators. */
#include "trial.h"

#include <string.h>

enum scene_kind { FLAT, NOISE, TWO_VALUES, SADDLE, ROUGH_SADDLE, BOARD, SCENES };

struct scene {
    enum scene_kind kind;
    int64_t top, low;        /* the greatest sample; one level */
    int64_t x, y;            /* the saddle, in sixteenths of a pixel */
    int64_t a, b, fall;      /* which way it is turned, how flat it is */
    int64_t square;          /* of a board, in sixteenths */
};

/* Anywhere, or in the middle third. */
static int64_t draw_middle(struct random *r, size_t side) {
    size_t most = 16 * (side <= 4096 ? side : 0);
    return (int64_t)(one_in(r, 5) ? below(r, most + 1) : most / 3 + below(r, most / 3 + 1));
}

static struct scene draw_scene(struct trial *t) {
    struct random *r = &t->random;
    struct scene s;
    s.kind = (enum scene_kind)below(r, SCENES + 2);
    if (s.kind >= SCENES) s.kind = SADDLE;
    s.top = t->call->deep ? 4095 : 255;
    s.low = (int64_t)below(r, (size_t)s.top + 1);
    s.x = draw_middle(r, t->width);
    s.y = draw_middle(r, t->height);
    s.a = (int64_t)below(r, 17) - 8;
    s.b = (int64_t)below(r, 8) + 1;
    s.fall = (int64_t)1 << between(r, 6, 16);
    s.square = (int64_t)between(r, 40, 200);
    t->centre_x = (float)s.x / 16.0f;
    t->centre_y = (float)s.y / 16.0f;
    return s;
}

static int64_t saddle(const struct scene *s, int64_t x, int64_t y) {
    int64_t dx = 16 * x - s->x, dy = 16 * y - s->y;
    int64_t level = s->top / 2 + (dx * s->a + dy * s->b) * (dx * s->b - dy * s->a) * (s->top / 255) / s->fall;
    return level < 0 ? 0 : level > s->top ? s->top : level;
}

static int64_t sample(struct random *r, const struct scene *s, int64_t x, int64_t y) {
    switch (s->kind) {
    case FLAT: return s->low;
    case NOISE: return (int64_t)below(r, (size_t)s->top + 1);
    case TWO_VALUES: return one_in(r, 2) ? s->low : s->top;
    case ROUGH_SADDLE: return (saddle(s, x, y) * 7 + (int64_t)below(r, (size_t)s->top + 1)) / 8;
    case BOARD: return ((16 * x + s->x) / s->square + (16 * y + s->y) / s->square) % 2 ? s->top : s->low;
    default: return saddle(s, x, y);
    }
}

static void put(void *img, int deep, size_t at, uint16_t level) {
    if (deep) ((uint16_t *)img)[at] = level;
    else ((uint8_t *)img)[at] = (uint8_t)level;
}

/* All lent samples; where the sizes are none of an image, as many as there are. */
static void fill(struct trial *t, void *img, size_t len) {
    struct scene s = draw_scene(t);
    int deep = t->call->deep;
    for (size_t at = 0; at < len; at++) {
        size_t x = t->pitch ? at % t->pitch : at, y = t->pitch ? at / t->pitch : 0;
        int64_t level = x < t->width ? sample(&t->random, &s, (int64_t)(x % 8192), (int64_t)(y % 8192)) : (int64_t)(draw(&t->random) & 65535);
        put(img, deep, at, (uint16_t)level);
    }
    if (deep && len && one_in(&t->random, 8)) {
        size_t at = below(&t->random, len);
        put(img, deep, at, (uint16_t)between(&t->random, 4096, 65535));
    }
}

/* Sizes of an image, about the limits too. */
static size_t draw_sizes(struct trial *t) {
    struct random *r = &t->random;
    size_t least = one_in(r, 4) ? 1 : 9, most = one_in(r, 4) ? 60 : 24;
    t->width = between(r, least, most);
    t->height = between(r, least, most);
    if (one_in(r, 40)) t->width = 4096, t->height = between(r, 1, 5);
    else if (one_in(r, 40)) t->height = 4096, t->width = between(r, 1, 5);
    t->pitch = t->width;
    if (one_in(r, 3)) t->pitch += between(r, 1, 20);
    else if (t->height <= 5 && one_in(r, 8)) t->pitch = 8192;
    return t->pitch * t->height;
}

/* Sizes and a count of samples that are no image. The least that is left of a product that wraps is what is lent. */
static size_t spoil_sizes(struct trial *t, size_t len) {
    struct random *r = &t->random;
    switch (below(r, 14)) {
    case 0: return len - 1;
    case 1: return len + 1;
    case 2: return 0;
    case 3: t->width = 0; return len;
    case 4: t->height = 0; return 0;
    case 5: t->width = t->pitch = 4097; t->height = 1; return 4097;
    case 6: t->height = 4097; t->width = t->pitch = 1; return 4097;
    case 7: t->pitch = t->width - 1; return t->pitch * t->height;
    case 8: t->pitch = 8193; t->height = 1; return 8193;
    case 9: t->height = (size_t)1 << 63; t->pitch = 2; t->width = 1; return 0;
    case 10: t->pitch = t->height = (size_t)1 << 32; return 0;
    case 11: t->width += (size_t)1 << 32; t->pitch += (size_t)1 << 32; return len;
    case 12: t->pitch += 3; return t->width * t->height % 65536;
    default: t->pitch += 3; return (t->pitch * (t->height - 1) + t->width) % 65536;
    }
}

void draw_image(struct trial *t) {
    size_t len = draw_sizes(t);
    if (one_in(&t->random, 9)) len = spoil_sizes(t, len);
    fill(t, lend(t, INPUT, t->call->deep ? WORDS : BYTES, len), len);
}

static float draw_limit(struct random *r, float usual) {
    if (one_in(r, 40)) return odd_float(r);
    switch (below(r, 6)) {
    case 0: return 0.0f;
    case 1: return eighth(r, 0, 64);
    default: return usual;
    }
}

void draw_settings(struct trial *t, struct settings *s) {
    struct random *r = &t->random;
    int plain = one_in(r, 3);
    s->radius = one_in(r, 4) ? between(r, 0, 7) : between(r, 1, 3);
    if (one_in(r, 24)) s->radius = one_in(r, 2) ? 8 : ((size_t)1 << 32) + 2;
    s->det_margin = plain ? 0.0f : draw_limit(r, 1e-3f);
    s->max_offset = draw_limit(r, 1.5f);
    s->min_abs_det = plain ? 0.0f : draw_limit(r, 1e-4f);
    if (one_in(r, 10)) s->det_margin = 0.0f, s->min_abs_det = 1e30f;
}

void draw_seed(struct trial *t, float *x, float *y) {
    struct random *r = &t->random;
    switch (below(r, 12)) {
    case 0: *x = odd_float(r); *y = odd_float(r); break;
    case 1: *x = t->centre_x; *y = odd_float(r); break;
    case 2: *x = eighth(r, -16, 48); *y = eighth(r, -16, 48); break;
    case 3: *x = 0.5f + (float)(t->width / 2 % 4096); *y = -0.5f + (float)(t->height / 2 % 4096); break;
    case 4: *x = eighth(r, 0, 480); *y = eighth(r, 0, 480); break;
    default: *x = t->centre_x + eighth(r, -12, 12); *y = t->centre_y + eighth(r, -12, 12);
    }
}

void draw_ring(struct trial *t, int32_t *ring, size_t radius) {
    static const int32_t five[32] = CHESS_CORNERS_RING5, ten[32] = CHESS_CORNERS_RING10;
    struct random *r = &t->random;
    size_t most = radius <= 10 ? radius : 10;
    for (size_t i = 0; i < 32; i++) ring[i] = (int32_t)below(r, 2 * most + 1) - (int32_t)most;
    if (radius == 5 && one_in(r, 2)) memcpy(ring, five, sizeof five);
    if (radius == 10 && one_in(r, 2)) memcpy(ring, ten, sizeof ten);
    if (!one_in(r, 10)) return;
    switch (below(r, 4)) {
    case 0: ring[below(r, 32)] = (int32_t)most + 1; break;
    case 1: ring[below(r, 32)] = -(int32_t)most - 1; break;
    case 2: ring[below(r, 32)] = INT32_MIN; break;
    default: ring[below(r, 32)] = INT32_MAX;
    }
}

/* Those of the radius, for the most part; else anything. */
void draw_columns(struct trial *t, size_t radius, float *columns, float *overlap) {
    struct random *r = &t->random;
    float *spare = (float *)(void *)t->spare;
    any_bytes(r, columns, 1125 * sizeof *columns);
    if (one_in(r, 8)) for (size_t i = 0; i < 1125; i++) columns[i] = eighth(r, -8, 8);
    if (!overlap) overlap = spare;
    any_bytes(r, overlap, 225 * sizeof *overlap);
    if (one_in(r, 4)) return;
    if (chess_corners_fit_operator(radius, columns, overlap) != 0) columns[0] = 0.0f;
}
