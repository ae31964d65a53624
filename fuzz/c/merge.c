/* The merge, and how many heads it wants. */
#include "groups.h"

enum { CORNERS, HEADS, LINKS, COUNT };

static float draw_place(struct random *r, int far) {
    if (far) return one_in(r, 2) ? odd_float(r) : 1e30f;
    return eighth(r, -40, 400);
}

static size_t fill_corners(struct trial *t, float *corners, size_t len) {
    struct random *r = &t->random;
    int odd = one_in(r, 5);
    for (size_t i = 0; i < len; i++) {
        int far = odd && one_in(r, len);
        corners[i] = i % 3 == 2 && one_in(r, 9) ? odd_float(r) : draw_place(r, far);
    }
    return len;
}

static size_t draw_list_len(struct trial *t) {
    size_t len = 3 * draw_count(t, 40);
    return one_in(&t->random, 16) ? len + between(&t->random, 1, 2) : len;
}

static float draw_radius(struct random *r) {
    switch (below(r, 12)) {
    case 0: return odd_float(r);
    case 1: return 0.0f;
    case 2: return 1e-12f;
    case 3: return 1000.0f;
    default: return eighth(r, 4, 80);
    }
}

/* As many heads as are wanted, or fewer. */
static size_t draw_heads(struct trial *t, const float *corners, size_t len) {
    size_t heads = 0;
    if (chess_corners_merge_heads(corners, len, t->limit, &heads) != 0 || heads > 60000) heads = below(&t->random, 100);
    return near_len(t, heads);
}

void draw_merge(struct trial *t) {
    size_t len = draw_list_len(t);
    float *corners = lend(t, CHANGED, FLOATS, len);
    fill_corners(t, corners, len);
    t->limit = draw_radius(&t->random);
    lend(t, SCRATCH, WORDS, draw_heads(t, corners, len));
    lend(t, SCRATCH, WORDS, near_len(t, len / 3));
    lend(t, OUTPUT, SIZES, 1);
}

uint32_t make_merge(const struct trial *t) {
    return chess_corners_merge(AT(float, CORNERS), LEN(CORNERS), t->limit, AT(uint16_t, HEADS), LEN(HEADS), AT(uint16_t, LINKS), LEN(LINKS),
                               AT(size_t, COUNT));
}

void draw_merge_heads(struct trial *t) {
    size_t len = draw_list_len(t);
    fill_corners(t, lend(t, INPUT, FLOATS, len), len);
    t->limit = draw_radius(&t->random);
    lend(t, OUTPUT, SIZES, 1);
}

uint32_t make_merge_heads(const struct trial *t) {
    return chess_corners_merge_heads(AT(float, CORNERS), LEN(CORNERS), t->limit, AT(size_t, 1));
}
