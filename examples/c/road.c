/* The whole road of a picture: response, peaks, refined list, merge.
 *   road FILE WIDTH HEIGHT
 * FILE holds WIDTH times HEIGHT bytes, row after row, and no more. They are put in rows of a multiple of 64 bytes, as a sensor with
 * padded rows gives them. A line a corner on standard output: x, y and strength as bit
 * patterns, then `total` and the count; or `refused`, the call and its number. */
#include "chess_corners.h"

#include <inttypes.h>
#include <stdio.h>
#include <stdlib.h>
#include <string.h>

enum { MOST = 4096 };

/* The paper's ring of radius 5. */
static const int32_t RING[32] = {0, -5, 2, -5, 3, -3, 5, -2, 5, 0, 5, 2, 3, 3, 2, 5,
                                 0, 5, -2, 5, -3, 3, -5, 2, -5, 0, -5, -2, -3, -3, -2, -5};

static float peaks[3 * MOST], corners[3 * MOST];
static uint16_t links[MOST];

static uint32_t bits(float x) {
    uint32_t b;
    memcpy(&b, &x, sizeof b);
    return b;
}

static int refused(const char *call, uint32_t number) {
    printf("refused %s %" PRIu32 "\n", call, number);
    return 1;
}

/* Merges in place, with as many heads as the grid of these corners has cells. */
static uint32_t merge(size_t found, size_t *kept) {
    size_t wanted;
    uint32_t no = chess_corners_merge_heads(corners, 3 * found, 2.0f, &wanted);
    if (no != CHESS_CORNERS_ACCEPTED) return no;
    uint16_t *heads = malloc((wanted + 1) * sizeof *heads);
    if (heads == NULL) return CHESS_CORNERS_GRID_TOO_BIG;
    no = chess_corners_merge(corners, 3 * found, 2.0f, heads, wanted, links, MOST, kept);
    free(heads);
    return no;
}

/* The corners of an image, or a refusal; response is a buffer of width times height. */
static int road(const uint8_t *img, size_t width, size_t height, size_t pitch, float *response) {
    size_t w, h, found, kept, len = pitch * height, area = width * height;
    uint32_t no = chess_corners_response(img, len, width, height, pitch, RING, 5, 0, 0, width, height, response, area,
                                         &w, &h);
    if (no != CHESS_CORNERS_ACCEPTED) return refused("response", no);
    no = chess_corners_peaks(response, area, w, h, 5, 2, 2, 200.0f, 2, peaks, 3 * MOST, &found);
    if (no != CHESS_CORNERS_ACCEPTED) return refused("peaks", no);
    no = chess_corners_refine_list(img, len, width, height, pitch, 2, 1e-3f, 1.5f, 1e-4f, peaks, 3 * found, corners,
                                   3 * MOST, &found);
    if (no != CHESS_CORNERS_ACCEPTED) return refused("refine_list", no);
    no = merge(found, &kept);
    if (no != CHESS_CORNERS_ACCEPTED) return refused("merge", no);
    for (size_t i = 0; i < kept; i++)
        printf("%08" PRIX32 " %08" PRIX32 " %08" PRIX32 "\n", bits(corners[3 * i]), bits(corners[3 * i + 1]),
               bits(corners[3 * i + 2]));
    printf("total %zu\n", kept);
    return 0;
}

/* The rows of a file, each followed by padding; whatever that holds, the corners are the same. */
static int read_rows(FILE *file, uint8_t *img, size_t width, size_t height, size_t pitch) {
    memset(img, 0xA5, pitch * height);
    for (size_t y = 0; y < height; y++)
        if (fread(img + y * pitch, 1, width, file) != width) return 0;
    return fgetc(file) == EOF;
}

/* A size in decimal digits. */
static int size_of(const char *word, size_t *size) {
    char *end;
    *size = strtoul(word, &end, 10);
    return word[0] >= '0' && word[0] <= '9' && *end == 0;
}

int main(int count, char **words) {
    size_t width, height;
    if (count != 4 || !size_of(words[2], &width) || !size_of(words[3], &height)) {
        fprintf(stderr, "usage: road FILE WIDTH HEIGHT\n");
        return 2;
    }
    FILE *file = fopen(words[1], "rb");
    if (file == NULL) {
        fprintf(stderr, "road: %s cannot be read\n", words[1]);
        return 2;
    }
    if (width == 0 || height == 0 || width > MOST || height > MOST) {
        fclose(file);
        return refused("response", CHESS_CORNERS_BAD_IMAGE);
    }
    size_t pitch = (width / 64 + 1) * 64, area = width * height;
    uint8_t *img = malloc(pitch * height);
    float *response = malloc(area * sizeof *response);
    int status = 2;
    if (img == NULL || response == NULL)
        fprintf(stderr, "road: there is no memory for the picture\n");
    else if (!read_rows(file, img, width, height, pitch))
        status = refused("response", CHESS_CORNERS_BAD_IMAGE);
    else
        status = road(img, width, height, pitch, response);
    fclose(file);
    free(response);
    free(img);
    return status;
}
