/* The fit operator and one seed. */
#include "groups.h"

void draw_fit_operator(struct trial *t) {
    t->radius = one_in(&t->random, 10) ? ((size_t)1 << 32) + below(&t->random, 9) : below(&t->random, 9);
    lend(t, OUTPUT, FLOATS, 1125);
    lend(t, OUTPUT, FLOATS, 225);
}

uint32_t make_fit_operator(const struct trial *t) {
    return chess_corners_fit_operator(t->radius, AT(float, 0), AT(float, 1));
}

size_t written_fit_operator(const struct trial *t, uint32_t number, size_t block) {
    size_t side = 2 * t->radius + 1;
    return number != 0 ? 0 : block == 0 ? 5 * side * side : LEN(block);
}

/* ---- one seed */
enum { IMG, PLACE, STATE, COVARIANCE, COLUMNS = 1, OVERLAP, WITH_PLACE, WITH_STATE, WITH_COVARIANCE };

static void draw_one(struct trial *t) {
    draw_settings(t, &t->first);
    draw_seed(t, &t->x, &t->y);
    t->word = (uint32_t)(one_in(&t->random, 3) ? 0 : one_in(&t->random, 4) ? draw(&t->random) : 1);
}

static void lend_answers(struct trial *t) {
    lend(t, OUTPUT, FLOATS, 3);
    lend(t, OUTPUT, INTS, 3);
    lend(t, OUTPUT, FLOATS, 3);
}

void draw_refine(struct trial *t) {
    draw_image(t);
    draw_one(t);
    lend_answers(t);
}

void draw_refine_with(struct trial *t) {
    float *columns, *overlap;
    draw_image(t);
    draw_one(t);
    columns = lend(t, INPUT, FLOATS, 1125);
    overlap = lend(t, INPUT, FLOATS, 225);
    draw_columns(t, t->first.radius, columns, overlap);
    lend_answers(t);
}

#define IMAGE(type) AT(type, IMG), LEN(IMG), t->width, t->height, t->pitch
#define SETTINGS(s) t->s.radius, t->s.det_margin, t->s.max_offset, t->s.min_abs_det
#define SEED t->x, t->y, t->word
#define ANSWERS AT(float, PLACE), AT(uint32_t, STATE), AT(float, COVARIANCE)
#define OPERATOR AT(float, COLUMNS), AT(float, OVERLAP)
#define WITH_ANSWERS AT(float, WITH_PLACE), AT(uint32_t, WITH_STATE), AT(float, WITH_COVARIANCE)

uint32_t make_refine(const struct trial *t) {
    return chess_corners_refine(IMAGE(uint8_t), SETTINGS(first), SEED, ANSWERS);
}

uint32_t make_refine_u16(const struct trial *t) {
    return chess_corners_refine_u16(IMAGE(uint16_t), SETTINGS(first), SEED, ANSWERS);
}

uint32_t make_refine_with(const struct trial *t) {
    return chess_corners_refine_with(IMAGE(uint8_t), SETTINGS(first), SEED, OPERATOR, WITH_ANSWERS);
}

uint32_t make_refine_with_u16(const struct trial *t) {
    return chess_corners_refine_with_u16(IMAGE(uint16_t), SETTINGS(first), SEED, OPERATOR, WITH_ANSWERS);
}

/* 0 to 7 write the place, 0 alone the state, and the covariance where the state says that there is one. */
static size_t written_one(const struct trial *t, uint32_t number, size_t block, size_t place) {
    if (block == place) return number <= 7 ? 3 : 0;
    if (block < place || number != 0) return 0;
    return block == place + 1 || AT(uint32_t, place + 1)[2] == 1 ? 3 : 0;
}

size_t written_refine(const struct trial *t, uint32_t number, size_t block) {
    return written_one(t, number, block, PLACE);
}

size_t written_refine_with(const struct trial *t, uint32_t number, size_t block) {
    return written_one(t, number, block, WITH_PLACE);
}
