/* What the three programs share: a picture read from a graymap, settings by words, the road to its corners, and the words of a refusal. */
#ifndef PICTURE_H
#define PICTURE_H

#include "chess_corners_structs.h"

#include <stdio.h>

/* How a program ends. */
enum { DONE = 0, REFUSED = 1, MISUSED = 2, FAILED = 3 };

/* Every setting of the road. */
struct settings {
    size_t ring;
    struct chess_corners_peak_settings peaks;
    struct chess_corners_settings refine;
    float merge;
    int bits;
};

/* A picture: the file with what was read of it. Where it is deep its samples are in `words`. */
struct picture {
    uint8_t *file;
    uint16_t *words;
    size_t maximum;
    struct chess_corners_image image;
};

/* The corners of a picture, x, y and strength of each. */
struct corners {
    float list[CHESS_CORNERS_MOST_LIST];
    size_t count;
};

void defaults(struct settings *s);

/* One word name=value, or `bits`. What is wrong goes to standard error; 0 where it is. */
int set(struct settings *s, const char *program, const char *word);

/* The settings, each with its default and range, a line each. */
void tell_settings(FILE *to);

/* Reads a graymap from standard input. DONE, or REFUSED (told on standard output) or FAILED (told on standard error). */
int read_picture(struct picture *p, const char *program);

void free_picture(struct picture *p);

/* Response, peaks, refined list, merge. DONE, REFUSED or FAILED, told as above. */
int find_corners(const struct picture *p, const struct settings *s, struct corners *c, const char *program);

/* `refused STEP NUMBER NAME` on standard output, with what is at fault behind it where there is something; REFUSED. */
int refused(const char *step, uint32_t number, const char *fault);

/* All of standard output is written: status, or FAILED, told on standard error. */
int ended(int status, const char *program);

#endif
