/* draw-corners [SETTING..] < board.pgm > found.ppm: the picture in colour (Netpbm P6) with a cross on each corner, the brighter the stronger, and
 * the tiles of the coverage as a faint grid, those without a corner shaded. */
#include "picture.h"

#include <math.h>
#include <stdlib.h>
#include <string.h>

static const char PROGRAM[] = "draw-corners";

static int help(void) {
    puts("draw-corners [SETTING..] < board.pgm > found.ppm\n\n"
         "The picture in colour (Netpbm P6) with a cross on each corner that find-corners finds, from red to yellow by its strength, and the eight by\n"
         "eight tiles of the coverage as a faint grid; a tile without a corner is shaded blue. Where a step is refused, `refused STEP NUMBER NAME` and\n"
         "no picture. The settings are those of find-corners:\n");
    tell_settings(stdout);
    return ended(DONE, PROGRAM);
}

struct canvas {
    uint8_t *rgb;
    size_t width, height;
};

/* Moves a pixel towards a colour by so many of 256. */
static void tint(struct canvas *v, long x, long y, const int colour[3], int by) {
    int k;
    if (x < 0 || y < 0 || (size_t)x >= v->width || (size_t)y >= v->height) return;
    for (k = 0; k < 3; k++) {
        uint8_t *c = v->rgb + 3 * ((size_t)y * v->width + (size_t)x) + k;
        *c = (uint8_t)((*c * (256 - by) + colour[k] * by) / 256);
    }
}

/* The picture in grey, its maximum white. */
static void paint(struct canvas *v, const struct picture *p) {
    const struct chess_corners_image *i = &p->image;
    size_t k;
    for (k = 0; k < i->width * i->height; k++) {
        size_t sample = i->words ? i->words[k] : i->bytes[k];
        memset(v->rgb + 3 * k, (int)(sample * 255 / p->maximum), 3);
    }
}

/* The tiles: the lines between them, and a shade over those without a corner. A pixel's tile is floor(x) 8 / width, as in the coverage. */
static void draw_tiles(struct canvas *v, const uint16_t counts[CHESS_CORNERS_COVERAGE_LEN]) {
    static const int line[3] = {90, 160, 255}, shade[3] = {40, 60, 160};
    size_t x, y;
    for (y = 0; y < v->height; y++)
        for (x = 0; x < v->width; x++) {
            size_t column = x * 8 / v->width, row = y * 8 / v->height;
            int edge = (x > 0 && (x - 1) * 8 / v->width != column) || (y > 0 && (y - 1) * 8 / v->height != row);
            if (edge) tint(v, (long)x, (long)y, line, 90);
            else if (counts[8 * row + column] == 0) tint(v, (long)x, (long)y, shade, 60);
        }
}

/* A cross of nine pixels each way, red where the corner is weak and yellow where it is the strongest. */
static void draw_corners(struct canvas *v, const struct corners *c) {
    float strongest = 0;
    size_t k;
    for (k = 0; k < c->count; k++)
        if (c->list[3 * k + 2] > strongest) strongest = c->list[3 * k + 2];
    for (k = 0; k < c->count; k++) {
        const float *f = c->list + 3 * k;
        long x = lroundf(f[0]), y = lroundf(f[1]), d;
        int colour[3];
        colour[0] = 255;
        colour[1] = strongest > 0 && f[2] > 0 ? (int)(255 * sqrtf(f[2] / strongest)) : 0;
        colour[2] = 0;
        for (d = -4; d <= 4; d++) {
            tint(v, x + d, y, colour, d == 0 ? 256 : 220);
            if (d != 0) tint(v, x, y + d, colour, 220);
        }
    }
}

static int draw(const struct picture *p, const struct corners *c) {
    uint16_t counts[CHESS_CORNERS_COVERAGE_LEN];
    struct canvas v;
    size_t bytes;
    uint32_t no = chess_corners_coverage(p->image.width, p->image.height, c->list, c->count, counts);
    if (no != CHESS_CORNERS_ACCEPTED) return refused("coverage", no, NULL);
    v.width = p->image.width;
    v.height = p->image.height;
    bytes = 3 * v.width * v.height;
    v.rgb = malloc(bytes);
    if (v.rgb == NULL) {
        fprintf(stderr, "%s: there is no memory for the picture\n", PROGRAM);
        return FAILED;
    }
    paint(&v, p);
    draw_tiles(&v, counts);
    draw_corners(&v, c);
    printf("P6\n%lu %lu\n255\n", (unsigned long)v.width, (unsigned long)v.height);
    fwrite(v.rgb, 1, bytes, stdout);
    free(v.rgb);
    return DONE;
}

int main(int count, char **words) {
    static struct corners corners;
    struct settings s;
    struct picture p;
    int k, status;
    defaults(&s);
    if (count == 2 && strcmp(words[1], "help") == 0) return help();
    for (k = 1; k < count; k++)
        if (!set(&s, PROGRAM, words[k])) return MISUSED;
    status = read_picture(&p, PROGRAM);
    if (status == DONE) status = find_corners(&p, &s, &corners, PROGRAM);
    if (status == DONE) status = draw(&p, &corners);
    free_picture(&p);
    return ended(status, PROGRAM);
}
