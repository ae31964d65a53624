/* One call with its inputs, and the calls there are. */
#ifndef FUZZ_TRIAL_H
#define FUZZ_TRIAL_H

#include "blocks.h"
#include "chess_corners.h"
#include "random.h"

struct settings {
    size_t radius;
    float det_margin, max_offset, min_abs_det;
};

struct trial {
    const struct call *call;
    struct random random;
    struct block block[MOST_BLOCKS];
    size_t blocks;
    unsigned char *spare; /* MOST_BYTES of memory for a call that is made while inputs are drawn */

    /* Each call uses those that its parameters name. */
    size_t width, height, pitch;                /* of an image, a response or, in squares, a board; width: the side of a tile */
    size_t radius, window_radius, refine_radius;
    size_t x0, y0, x1, y1;                      /* a region; x0, y0: a cell */
    size_t count, number;
    struct settings first, second;
    float x, y, strength;                       /* a seed, a corner, two scales */
    float limit;                                /* a threshold, a limit, a radius of the merge */
    uint32_t word;                              /* what is wanted, a cluster size, a number */
    float centre_x, centre_y;                   /* where an image has its saddle */
};

/* Numbers as a set: bit n is number n, the last bit every number that has none of its own. */
#define NUMBER(n) (UINT64_C(1) << (n))
enum { OTHER_NUMBER = 63 };

struct call {
    const char *name;
    int deep;         /* an image of words, a graymap of two bytes a sample */
    uint64_t numbers; /* those that the rules name for the call: no other may come, and each must */
    void (*draw)(struct trial *t);
    uint32_t (*make)(const struct trial *t);
    /* How many elements from the front of a block the call writes where it answers the number. */
    size_t (*written)(const struct trial *t, uint32_t number, size_t block);
};

extern const struct call calls[];
extern const size_t calls_count;

/* Adds a block and hands back its contents to be filled; those that are written hold any bits. */
void *lend(struct trial *t, enum role role, enum kind kind, size_t len);
size_t lent_size(const struct trial *t, size_t block); /* what a call wrote to a block of one size */

/* ---- what calls share */
size_t near_len(struct trial *t, size_t len);               /* itself, or one in ten times beside it */
size_t whole_or_none(const struct trial *t, uint32_t number, size_t block); /* all is written by 0, nothing by a refusal */
void draw_image(struct trial *t);                           /* lends the image as block 0 */
void draw_settings(struct trial *t, struct settings *s);
void draw_seed(struct trial *t, float *x, float *y);
void draw_ring(struct trial *t, int32_t *ring, size_t radius);
void draw_columns(struct trial *t, size_t radius, float *columns, float *overlap);
size_t draw_count(struct trial *t, size_t usual);           /* of corners: a few, or about 4,096 */

#endif
