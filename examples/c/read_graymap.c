/* Reads graymaps and says of each what netpbm's own reader said when they were made (examples/graymaps/make): sizes,
 * maximum, the sum of the samples, and the sum of each times its number from 1; or why it is refused.
 *   read_graymap FOLDER NAME.. */
#include "chess_corners.h"

#include <inttypes.h>
#include <stdio.h>

static uint8_t file[1 << 16];

/* The bytes of a file, or more than there is room for where it is none or too long. */
static size_t load(const char *folder, const char *name) {
    char path[4096];
    int length = snprintf(path, sizeof path, "%s/%s", folder, name);
    if (length < 0 || (size_t)length >= sizeof path) return sizeof file + 1;
    FILE *in = fopen(path, "rb");
    if (in == NULL) return sizeof file + 1;
    size_t count = fread(file, 1, sizeof file, in);
    if (ferror(in) || fgetc(in) != EOF) count = sizeof file + 1;
    fclose(in);
    return count;
}

static void told(const char *name, size_t count) {
    size_t width, height, maximum, start, pixel;
    uint32_t no = chess_corners_graymap(file, count, &width, &height, &maximum, &start, &pixel);
    if (no == CHESS_CORNERS_ABOVE_MAXIMUM) {
        printf("%s: refused %" PRIu32 " at pixel %zu\n", name, no, pixel);
        return;
    }
    if (no != CHESS_CORNERS_ACCEPTED) {
        printf("%s: refused %" PRIu32 "\n", name, no);
        return;
    }
    const uint8_t *pixels = file + start;
    uint64_t sum = 0, weighed = 0;
    for (size_t k = 0; k < width * height; k++) {
        sum += pixels[k];
        weighed += (k + 1) * pixels[k];
    }
    printf("%s: %zu by %zu, maximum %zu, sum %" PRIu64 ", weighed %" PRIu64 "\n", name, width, height, maximum, sum,
           weighed);
}

int main(int argc, char **argv) {
    for (int k = 2; k < argc; k++) {
        size_t count = load(argv[1], argv[k]);
        if (count > sizeof file) {
            fprintf(stderr, "%s: no file, or too long\n", argv[k]);
            return 2;
        }
        told(argv[k], count);
    }
    return 0;
}
