/* find-corners [SETTING..] < board.pgm: the corners of a graymap of 8 or 12 bits, a line each: x, y and strength; then `total` and their count. */
#include "picture.h"

#include <string.h>

static const char PROGRAM[] = "find-corners";

static int help(void) {
    puts("find-corners [SETTING..] < board.pgm\n\n"
         "The corners of a chessboard in a graymap (Netpbm P5, 8 or 12 bits, at most 4096 by 4096). A line a corner on standard output: x, y and\n"
         "strength, with as many digits as give the same number back; then `total` and the count. Or `refused STEP NUMBER NAME` alone, with what is\n"
         "at fault. The settings, each with its default and what it may be:\n");
    tell_settings(stdout);
    puts("\nIt ends with 0 where corners were looked for, also where there are none; with 1 where a step is refused, 2 where a setting is wrong, 3 where\n"
         "standard input or output fails. Memory: the file, twice as much for its samples where they have 12 bits, and four bytes a pixel: 81 MiB for the\n"
         "largest picture of bytes, 129 MiB for that of 12 bits; and two bytes a cell of the merge's grid.");
    return ended(DONE, PROGRAM);
}

static uint32_t bits(float x) {
    uint32_t b;
    memcpy(&b, &x, sizeof b);
    return b;
}

static void tell(const struct corners *c, int in_bits) {
    size_t k;
    for (k = 0; k < c->count; k++) {
        const float *f = c->list + 3 * k;
        if (in_bits) printf("%08lX %08lX %08lX\n", (unsigned long)bits(f[0]), (unsigned long)bits(f[1]), (unsigned long)bits(f[2]));
        else printf("%.9g %.9g %.9g\n", f[0], f[1], f[2]);
    }
    printf("total %lu\n", (unsigned long)c->count);
}

int main(int count, char **words) {
    static struct corners corners;
    struct settings s;
    struct picture p;
    int k, status;
    defaults(&s);
    if (count == 2 && strcmp(words[1], "help") == 0) return help();
    for (k = 1; k < count; k++)
        if (!set(&s, PROGRAM, words[k])) return MISUSED;
    status = read_picture(&p, PROGRAM);
    if (status == DONE) status = find_corners(&p, &s, &corners, PROGRAM);
    if (status == DONE) tell(&corners, s.bits);
    free_picture(&p);
    return ended(status, PROGRAM);
}
