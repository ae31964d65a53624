/* Corners tied to the places of a board. */
#include "groups.h"

enum { PLACES, CORNERS, ANSWERS, PLACE };

static size_t draw_side(struct random *r) {
    static const size_t bad[] = {0, 1, 33, ((size_t)1 << 32) + 3, SIZE_MAX};
    if (one_in(r, 40)) return bad[below(r, sizeof bad / sizeof bad[0])];
    return one_in(r, 100) ? 32 : between(r, 2, 7);
}

/* A place every four pixels; one in twenty boards has one that is no number. */
static void fill_places(struct trial *t, float *places, size_t len) {
    struct random *r = &t->random;
    size_t across = t->height - 1;
    for (size_t i = 0; i < len; i++) {
        size_t step = across ? (i % 2 ? i / 2 / across : i / 2 % across) : 0;
        places[i] = 4.0f * (float)(step % 64) + eighth(r, -8, 8);
    }
    if (len && one_in(r, 20)) {
        float *place = &places[below(r, len)];
        *place = odd_float(r);
    }
}

static size_t corners_len(struct trial *t, size_t inner) {
    struct random *r = &t->random;
    size_t count = inner + (one_in(r, 2) ? below(r, 10) : 0);
    if (one_in(r, 20)) count = draw_count(t, inner);
    if (one_in(r, 30)) count = 4097;
    return 3 * count + (one_in(r, 20) ? between(r, 1, 2) : 0);
}

/* A corner near each place, from any place on; some are far away, and some stand where another does. */
static void fill_corners(struct trial *t, float *corners, size_t len, const float *places, size_t places_len) {
    struct random *r = &t->random;
    size_t inner = places_len / 2, first = inner ? below(r, inner) : 0;
    int rough = one_in(r, 3);
    for (size_t i = 0; i < len; i++) {
        size_t k = inner ? (first + i / 3) % inner : 0;
        int near = inner && i / 3 < inner && i % 3 < 2;
        corners[i] = near ? places[2 * k + i % 3] + eighth(r, -4, 4) : eighth(r, 4000, 8000);
        if (rough && one_in(r, 3 * inner + 1)) corners[i] = one_in(r, 2) ? odd_float(r) : corners[i] + 4.0f;
    }
}

void draw_tie(struct trial *t) {
    struct random *r = &t->random;
    size_t inner, len, list;
    float *places;
    t->width = draw_side(r);
    t->height = draw_side(r);
    inner = (t->width - 1) % 64 * ((t->height - 1) % 64) % 1024;
    len = near_len(t, 2 * inner);
    places = lend(t, INPUT, FLOATS, len);
    fill_places(t, places, len);
    list = corners_len(t, inner);
    fill_corners(t, lend(t, INPUT, FLOATS, list), list, places, len);
    t->limit = one_in(r, 24) ? odd_float(r) : one_in(r, 6) ? 0.0f : eighth(r, 2, 400);
    lend(t, OUTPUT, WORDS, near_len(t, inner));
    lend(t, OUTPUT, SIZES, 1);
}

uint32_t make_tie(const struct trial *t) {
    return chess_corners_tie(t->width, t->height, AT(float, PLACES), LEN(PLACES), t->limit, AT(float, CORNERS), LEN(CORNERS), AT(uint16_t, ANSWERS),
                             LEN(ANSWERS), AT(size_t, PLACE));
}

/* 0 writes every answer, 33 and 34 the place. */
size_t written_tie(const struct trial *t, uint32_t number, size_t block) {
    if (block == ANSWERS) return number == 0 ? LEN(block) : 0;
    return block == PLACE && (number == 33 || number == 34) ? 1 : 0;
}
