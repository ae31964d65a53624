/* The fault of the clinics on examples/fine_board.gray: a merge at a radius above the distance of two neighbouring
 * corners loses one of them, and the tie refuses and names its place. Then the same at a radius below that distance.
 *   fine_board FILE
 * FILE holds the picture of render_fine_board. examples/fine_board.says is what every processor prints. */
#include "chess_corners.h"
#include "fine_board.h"

#include <float.h>
#include <inttypes.h>
#include <math.h>
#include <stdio.h>
#include <string.h>

enum { MOST = 4096, HEADS = 16384, AREA = WIDTH * HEIGHT };

/* Sixteen pixels about radius 3: the ring of radius 5 would reach over squares of 5 pixels. */
static const int32_t RING[32] = {0, -3, 1, -3, 2, -2, 3, -1, 3, 0, 3, 1, 2, 2, 1, 3,
                                 0, 3, -1, 3, -2, 2, -3, 1, -3, 0, -3, -1, -2, -2, -1, -3};

static uint8_t img[AREA];
static float response[AREA], peaks[3 * MOST], list[3 * MOST], corners[3 * MOST], places[2 * PLACES];
static uint16_t heads[HEADS], links[MOST], answers[PLACES];

static int refused(const char *call, uint32_t number) {
    printf("refused %s %" PRIu32 "\n", call, number);
    return 1;
}

/* With -std=c99 a product that is stored is not fused with the sum, so that these are the library's numbers. */
static float squared(const float *a, const float *b) {
    float dx = a[0] - b[0], dy = a[1] - b[1];
    float xx = dx * dx;
    float yy = dy * dy;
    return xx + yy;
}

static double distance(const float *a, const float *b) { return sqrt((double)squared(a, b)); }

/* Where each inner corner should be. Numerator and w are exact as floats, so that only the quotient is rounded. */
static void predict(void) {
    for (int k = 0; k < PLACES; k++) {
        int u = k % ROW + 1, v = k / ROW + 1, w = W0 + WU * u + WV * v;
        places[2 * k] = (float)(X0 * w + XU * u + XV * v) / (float)w;
        places[2 * k + 1] = (float)(Y0 * w + YU * u + YV * v) / (float)w;
    }
}

/* The corners before any merge, to the front of list. */
static int find(size_t *found) {
    size_t w, h;
    uint32_t no = chess_corners_response(img, AREA, WIDTH, HEIGHT, WIDTH, RING, 3, 0, 0, WIDTH, HEIGHT, response, AREA,
                                         &w, &h);
    if (no != CHESS_CORNERS_ACCEPTED) return refused("response", no);
    no = chess_corners_peaks(response, AREA, w, h, 3, 2, 2, 200.0f, 2, peaks, 3 * MOST, found);
    if (no != CHESS_CORNERS_ACCEPTED) return refused("peaks", no);
    no = chess_corners_refine_list(img, AREA, WIDTH, HEIGHT, WIDTH, 2, 1e-3f, 1.5f, 1e-4f, peaks, 3 * *found, list,
                                   3 * MOST, found);
    if (no != CHESS_CORNERS_ACCEPTED) return refused("refine_list", no);
    return 0;
}

static void tell_found(size_t found) {
    double least = INFINITY, next = INFINITY;
    for (size_t i = 0; i < found; i++)
        for (size_t j = 0; j < i; j++) {
            double d = distance(&list[3 * i], &list[3 * j]);
            next = fmin(next, fmax(least, d));
            least = fmin(least, d);
        }
    printf("found: %zu corners for %d places, on a board of %d by %d squares\n", found, PLACES, ROWS, COLUMNS);
    printf("  the closest two are %.3f pixels apart, the next two %.3f\n", least, next);
}

/* Whether place k has a corner within the limit, and which: a board of two by two squares has one inner corner. */
static int corner_at(size_t k, float limit, size_t kept, uint16_t *corner) {
    size_t fault;
    return chess_corners_tie(2, 2, &places[2 * k], 2, limit, corners, 3 * kept, corner, 1, &fault) ==
           CHESS_CORNERS_ACCEPTED;
}

/* What the clinics had: the corners of a row, given to its places in order. */
static void tell_row(size_t row, float limit, size_t kept) {
    size_t next = row * ROW, end = next + ROW;
    uint16_t corner;
    printf("  without the tie it still looks like a list; row %zu, counted from its first corner:\n", row);
    for (size_t k = next; k < end; k++)
        if (corner_at(k, limit, kept, &corner)) {
            printf("    place %zu gets the corner of place %zu, %.3f pixels off\n", next, k,
                   distance(&places[2 * next], &corners[3 * corner]));
            next++;
        }
    for (; next < end; next++) printf("    place %zu gets none\n", next);
}

static void tell_fault(uint32_t no, size_t k, float limit, size_t kept) {
    uint16_t corner;
    printf("  tie: refused, %" PRIu32 " %s, at place %zu: row %zu, column %zu\n", no,
           no == CHESS_CORNERS_NO_CORNER ? "NoCorner" : "UsedTwice", k, k / ROW, k % ROW);
    if (corner_at(k, FLT_MAX, kept, &corner))
        printf("  squared distance to the nearest corner: %.4f, limit %g\n",
               (double)squared(&places[2 * k], &corners[3 * corner]), (double)limit);
    if (no == CHESS_CORNERS_NO_CORNER) tell_row(k / ROW, limit, kept);
}

/* The greatest squared distance of all, and the first two places, whose corners were one before. */
static void tell_tied(void) {
    float worst = 0.0f;
    for (size_t k = 0; k < PLACES; k++) worst = fmaxf(worst, squared(&places[2 * k], &corners[3 * answers[k]]));
    printf("  tie: %d places, each with a corner of its own, at squared distances up to %.4f\n", PLACES, (double)worst);
    for (size_t k = 0; k < 2; k++) {
        const float *corner = &corners[3 * answers[k]];
        printf("    place %zu, predicted at %.3f %.3f, has corner %d at %.3f %.3f\n", k, (double)places[2 * k],
               (double)places[2 * k + 1], answers[k], (double)corner[0], (double)corner[1]);
    }
}

/* Merges a copy of the list and ties what is kept. */
static int attempt(float radius, float limit, size_t found) {
    size_t kept, fault;
    memcpy(corners, list, sizeof corners);
    uint32_t no = chess_corners_merge(corners, 3 * found, radius, heads, HEADS, links, MOST, &kept);
    if (no != CHESS_CORNERS_ACCEPTED) return refused("merge", no);
    printf("merge at radius %g: %zu corners\n", (double)radius, kept);
    no = chess_corners_tie(ROWS, COLUMNS, places, 2 * PLACES, limit, corners, 3 * kept, answers, PLACES, &fault);
    if (no == CHESS_CORNERS_NO_CORNER || no == CHESS_CORNERS_USED_TWICE)
        tell_fault(no, fault, limit, kept);
    else if (no == CHESS_CORNERS_ACCEPTED)
        tell_tied();
    else
        return refused("tie", no);
    return 0;
}

int main(int count, char **words) {
    FILE *file = count == 2 ? fopen(words[1], "rb") : NULL;
    size_t found, len = file == NULL ? 0 : fread(img, 1, AREA, file);
    if (file != NULL) fclose(file);
    if (len != AREA) {
        fprintf(stderr, "usage: fine_board FILE, of %d bytes\n", AREA);
        return 2;
    }
    predict();
    if (find(&found) != 0) return 1;
    tell_found(found);
    /* Above the distance of the closest two; again with a limit that is far too wide; and below that distance. */
    return attempt(5.0f, 2.25f, found) || attempt(5.0f, 100.0f, found) || attempt(2.0f, 2.25f, found);
}
