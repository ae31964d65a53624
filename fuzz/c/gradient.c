/* The gradient of the response at a cell of a tile. */
#include "groups.h"

enum { TILE, RING, GRID };

/* A place that leaves the tile. */
static int32_t outside(struct trial *t, size_t at) {
    switch (below(&t->random, 4)) {
    case 0: return (int32_t)((t->width - at) % 64);
    case 1: return -(int32_t)(at % 64) - 1;
    case 2: return INT32_MAX;
    default: return INT32_MIN;
    }
}

static void fill_ring(struct trial *t, int32_t *ring) {
    struct random *r = &t->random;
    for (size_t i = 0; i < 32; i++) {
        size_t at = (i % 2 ? t->y0 : t->x0) % 64, side = t->width % 64;
        ring[i] = (int32_t)below(r, side + !side) - (int32_t)at;
    }
    if (one_in(r, 10)) {
        size_t i = below(r, 32);
        ring[i] = outside(t, i % 2 ? t->y0 : t->x0);
    }
}

static size_t draw_cell(struct trial *t) {
    struct random *r = &t->random;
    if (one_in(r, 20)) return one_in(r, 2) ? SIZE_MAX : below(r, t->width % 64 + 2);
    return t->width > 2 && t->width < 64 ? between(r, 1, t->width - 2) : 0;
}

void draw_gradient(struct trial *t) {
    struct random *r = &t->random;
    size_t cells, len;
    uint8_t *tile;
    float *grid;
    t->width = between(r, 3, 16);
    if (one_in(r, 20)) t->width = one_in(r, 2) ? below(r, 3) : (size_t)1 << 32;
    cells = t->width * t->width;
    len = near_len(t, cells);
    tile = lend(t, INPUT, BYTES, len);
    any_bytes(r, tile, len);
    if (one_in(r, 4)) for (size_t i = 0; i < len; i++) tile[i] &= 1;
    t->x0 = draw_cell(t);
    t->y0 = draw_cell(t);
    fill_ring(t, lend(t, INPUT, INTS, 32));
    t->x = one_in(r, 6) ? odd_float(r) : eighth(r, -40, 40);
    t->y = one_in(r, 6) ? odd_float(r) : eighth(r, -40, 40);
    len = near_len(t, 2 * cells);
    grid = lend(t, CHANGED, FLOATS, len);
    if (!one_in(r, 4)) for (size_t i = 0; i < len; i++) grid[i] = eighth(r, -800, 800);
}

uint32_t make_gradient(const struct trial *t) {
    return chess_corners_gradient(AT(uint8_t, TILE), LEN(TILE), t->width, AT(int32_t, RING), t->x0, t->y0, t->x, t->y, AT(float, GRID), LEN(GRID));
}
