/* Refines a list of 4,096 seeds over and over, for a profiler to look on: the board and the seeds of compare/bench, as
 * near as C has them.
 *   profile RADIUS near|anywhere TIMES */
#include "chess_corners.h"

#include <math.h>
#include <stdio.h>
#include <stdlib.h>
#include <string.h>

enum { WIDTH = 640, HEIGHT = 480, AREA = WIDTH * HEIGHT, SEEDS = 4096 };

static uint8_t img[AREA];
static float seeds[3 * SEEDS], out[3 * SEEDS];
static uint32_t drawn = 1;

/* From 0 up to but without 1. */
static float unit(void) {
    drawn = drawn * 1664525u + 1013904223u;
    return (float)(drawn >> 8) / 16777216.0f;
}

/* Squares of 24 pixels, turned. */
static int lit(float x, float y) {
    int i = (int)floorf((24.0f * x + 3.0f * y) / 585.0f), j = (int)floorf((24.0f * y - 3.0f * x) / 585.0f);
    return ((i + j) & 1) == 0;
}

static void draw(void) {
    for (int k = 0; k < AREA; k++) {
        int points = 0;
        for (int p = 0; p < 64; p++)
            points += lit((float)(k % WIDTH) + (float)(p % 8) / 4.0f - 0.875f, (float)(k / WIDTH) + (float)(p / 8) / 4.0f - 0.875f);
        img[k] = (uint8_t)(40 + points * 160 / 64 + (int)(7.0f * unit()) - 3);
    }
}

/* Within 0.8 pixels of a corner that lies inside, on each axis, or anywhere. */
static void seed(int near) {
    for (int n = 0; n < SEEDS;) {
        int i = (int)(60.0f * unit()) - 20, j = (int)(60.0f * unit()) - 20;
        float x = 24.0f * (float)i - 3.0f * (float)j, y = 3.0f * (float)i + 24.0f * (float)j;
        if (!(x > 10.0f && x < WIDTH - 11.0f && y > 10.0f && y < HEIGHT - 11.0f)) continue;
        seeds[3 * n] = near ? x + 1.6f * (unit() - 0.5f) : WIDTH * unit();
        seeds[3 * n + 1] = near ? y + 1.6f * (unit() - 0.5f) : HEIGHT * unit();
        seeds[3 * n++ + 2] = unit();
    }
}

int main(int argc, char **argv) {
    if (argc != 4) return 2;
    size_t count = 0;
    draw();
    seed(strcmp(argv[2], "near") == 0);
    for (int n = atoi(argv[3]); n > 0; n--)
        if (chess_corners_refine_list(img, AREA, WIDTH, HEIGHT, WIDTH, (size_t)atoi(argv[1]), 1e-3f, 1.5f, 1e-4f, seeds, 3 * SEEDS,
                                      out, 3 * SEEDS, &count) != 0)
            return 1;
    printf("radius %s, %s: %d seeds to %zu records\n", argv[1], argv[2], (int)SEEDS, count);
    return 0;
}
