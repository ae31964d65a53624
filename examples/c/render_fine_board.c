/* Draws examples/fine_board.gray, the board of fine_board.h.
 *   render_fine_board > FILE
 * WIDTH times HEIGHT bytes, row after row. Whole numbers that fit their types are all it computes with, so that every
 * computer and compiler draws the same bytes. */
#include "fine_board.h"

#include <inttypes.h>
#include <stdio.h>

/* A pixel is UNIT wide and the mean of POINTS by POINTS points that are spread over BLUR pixels. */
enum { UNIT = 32, POINTS = 16, BLUR = 2, DARK = 40, LIGHT = 210, NOISE = 2 };

/* Whether a point is on a light square or on the paper about the board. */
static int is_light(int64_t px, int64_t py) {
    int64_t x = px - X0 * UNIT, y = py - Y0 * UNIT;
    /* fine_board.h solved for u and v, each a quotient by det, which is above zero on the whole picture. */
    int64_t det = UNIT * (XU * YV - XV * YU) + x * (WV * YU - WU * YV) + y * (WU * XV - WV * XU);
    int64_t u = W0 * (YV * x - XV * y), v = W0 * (XU * y - YU * x);
    if (u < 0 || v < 0 || u >= COLUMNS * det || v >= ROWS * det) return 1;
    return (u / det + v / det) % 2 != 0;
}

static int level(int x, int y) {
    int light = 0;
    for (int j = 0; j < POINTS; j++)
        for (int i = 0; i < POINTS; i++)
            light += is_light(UNIT * x + BLUR * (2 * i - POINTS + 1), UNIT * y + BLUR * (2 * j - POINTS + 1));
    return DARK + (LIGHT - DARK) * light / (POINTS * POINTS);
}

/* From -NOISE to NOISE, by a congruential generator. */
static int noise(void) {
    static uint32_t state = 206;
    state = state * 1664525 + 1013904223;
    return (int)((state >> 16) % (2 * NOISE + 1)) - NOISE;
}

int main(void) {
    for (int y = 0; y < HEIGHT; y++)
        for (int x = 0; x < WIDTH; x++)
            if (putchar(level(x, y) + noise()) == EOF) return 1;
    return fflush(stdout) == 0 ? 0 : 1;
}
