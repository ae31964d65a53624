/* tie-board ROWS COLUMNS LIMIT PLACES < corners: ties to each inner corner of a board of ROWS by COLUMNS squares the corner that is nearest to its
 * place. PLACES is a file with x and y of each place, by row; standard input has corners as find-corners writes them. */
#include "picture.h"

#include <errno.h>
#include <math.h>
#include <stdlib.h>
#include <string.h>

static const char PROGRAM[] = "tie-board";

static int help(void) {
    puts("tie-board ROWS COLUMNS LIMIT PLACES < corners\n\n"
         "Ties to each inner corner of a board of ROWS by COLUMNS squares (2 to 32 each) the corner that is nearest to its predicted place, if it lies\n"
         "within LIMIT of it (on the squared distance) and no corner serves two places. PLACES: a file with x and y of each place, (ROWS - 1) times\n"
         "(COLUMNS - 1) of them, by row. Standard input: corners as find-corners writes them in decimal, x, y and strength a line, then `total` and\n"
         "the count. A line a place: row, column, the number of its corner from 0, x and y; then `total` and the count. Or `refused tie NUMBER NAME`\n"
         "with the place at fault. It ends with 0, 1 refused, 2 misused, 3 where a file fails.");
    return ended(DONE, PROGRAM);
}

static int failed(const char *what, const char *name) {
    fprintf(stderr, "%s: %s %s\n", PROGRAM, name, what);
    return FAILED;
}

/* A number of up to three digits. */
static int squares(const char *text, size_t *n) {
    char *end;
    unsigned long v = strtoul(text, &end, 10);
    *n = v;
    return text[0] >= '0' && text[0] <= '9' && *end == 0 && v <= 999;
}

/* All numbers of a file that holds nothing else, up to so many; the count, or -1. */
static long numbers(FILE *file, float *to, long most) {
    long count = 0;
    char word[64];
    while (fscanf(file, "%63s", word) == 1) {
        char *end;
        if (count == most) return -1;
        to[count++] = strtof(word, &end);
        if (end == word || *end != 0) return -1;
    }
    return ferror(file) ? -1 : count;
}

/* Corners as find-corners writes them: triples, and a last line that says how many there are. */
static int read_corners(struct corners *c) {
    char line[256];
    int ends = 0;
    c->count = 0;
    while (fgets(line, sizeof line, stdin) != NULL) {
        char rest[2];
        unsigned long total;
        float *f = c->list + 3 * c->count;
        if (ends) return failed("has more behind `total`", "standard input");
        if (sscanf(line, "total %lu %1s", &total, rest) == 1) {
            if (total != c->count) return failed("has not as many corners as its `total` says", "standard input");
            ends = 1;
        } else if (c->count == CHESS_CORNERS_MOST_CORNERS) {
            return failed("has more than 4096 corners", "standard input");
        } else if (sscanf(line, "%f %f %f %1s", f, f + 1, f + 2, rest) == 3) {
            c->count++;
        } else {
            return failed("has a line that is no corner: x, y and strength are wanted", "standard input");
        }
    }
    if (ferror(stdin)) return failed(strerror(errno), "standard input cannot be read:");
    return ends ? DONE : failed("does not end with `total`: it is cut, or its corners were refused", "standard input");
}

static int tell(uint32_t no, size_t place, size_t columns) {
    char fault[160];
    if (no != CHESS_CORNERS_NO_CORNER && no != CHESS_CORNERS_USED_TWICE) return refused("tie", no, NULL);
    sprintf(fault, no == CHESS_CORNERS_NO_CORNER ? "no corner lies within the limit of place %lu, row %lu, column %lu, all from 0"
                                                 : "the corner of place %lu, row %lu, column %lu, all from 0, is that of an earlier place",
            (unsigned long)place, (unsigned long)(place / (columns - 1)), (unsigned long)(place % (columns - 1)));
    return refused("tie", no, fault);
}

static int tie(size_t rows, size_t columns, float limit, const float *places, size_t count, const struct corners *c) {
    static uint16_t answers[CHESS_CORNERS_MOST_PLACES];
    size_t place = 0, k, inner = count / 2;
    uint32_t no = chess_corners_tie(rows, columns, places, count, limit, c->list, 3 * c->count, answers, inner, &place);
    if (no != CHESS_CORNERS_ACCEPTED) return tell(no, place, columns);
    for (k = 0; k < inner; k++) {
        const float *f = c->list + 3 * (size_t)answers[k];
        printf("%lu %lu %u %.9g %.9g\n", (unsigned long)(k / (columns - 1)), (unsigned long)(k % (columns - 1)), (unsigned)answers[k], f[0], f[1]);
    }
    printf("total %lu\n", (unsigned long)inner);
    return DONE;
}

int main(int count, char **words) {
    static struct corners corners;
    static float places[2 * CHESS_CORNERS_MOST_PLACES + 2];
    size_t rows, columns;
    float limit;
    char *end;
    FILE *file;
    long given;
    int status;
    if (count == 2 && strcmp(words[1], "help") == 0) return help();
    if (count != 5 || !squares(words[1], &rows) || !squares(words[2], &columns) || (limit = strtof(words[3], &end), end == words[3] || *end != 0)) {
        fprintf(stderr, "usage: tie-board ROWS COLUMNS LIMIT PLACES < corners; `tie-board help` says more\n");
        return MISUSED;
    }
    file = fopen(words[4], "r");
    if (file == NULL) return failed(strerror(errno), words[4]);
    given = numbers(file, places, 2 * CHESS_CORNERS_MOST_PLACES + 2);
    fclose(file);
    if (given < 0) return failed("is no list of numbers that a board may have", words[4]);
    status = read_corners(&corners);
    if (status == DONE) status = tie(rows, columns, limit, places, (size_t)given, &corners);
    return ended(status, PROGRAM);
}
