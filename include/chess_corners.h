/* Proved chessboard corners: the ChESS response, its peaks, the saddle-point refiner, the merge, the tie of corners to
 * the squares of a board, the reader of graymaps, the salvage of damaged corner files, the coverage of an image, and how
 * each sample of a tile moves the response.
 *
 * Link with libchess_corners.a. Every call takes any numbers and any contents of its buffers, ends, and returns
 * a number: 0 done, 1 to 7 a seed's status, from 10 up a refusal. A refusal writes nothing, neither to a buffer
 * nor to a further answer, with two exceptions: 33 and 34 write the place at fault, 24 the pixel. A call that is done
 * decides every element of what it may write; which elements stay as they were is said with each call. Nothing is kept
 * after a call, nothing is allocated, nothing is called back; calls on separate buffers may run at the same time.
 * docs/RULES.md has the rules by which each answer is decided; docs/USING.md units, settings with their defaults,
 * three rings, and what the archive needs.
 *
 * A buffer goes in as a pointer and the number of its elements. The caller owns all of them. The pointer must be
 * one of that many elements for as long as the call lasts, aligned for its type and not null, also where the
 * number is 0; and a buffer that is written must share no element with any other of the same call.
 *
 * An image is bytes, the pixel (x, y) at y * pitch + x: each row begins pitch bytes after the one before it, and what
 * stands behind its width pixels is padding, on which no answer depends. pitch: width where the rows have none, at most
 * 8192. img_len: pitch times height, so that the last row has its padding too. A response has no pitch. The calls that end
 * in _u16 take an image of words instead, each a sample of twelve bits; its pitch and img_len count samples.
 *
 * Places are in pixels: (0, 0) is the centre of the first pixel, x goes right and y down, so the image reaches from -0.5 to width - 0.5.
 * Strengths and thresholds are those of the response, sums of grey levels. All floats are IEEE 754 binary32, in memory and in every
 * operation, to nearest with ties to even; a NaN that a call works out can have any NaN's bits (7FC00000 and FFC00000 both occur), what is
 * copied keeps its bits. The caller's environment must be the default one: that rounding, subnormals kept (neither flushed nor taken for
 * zero), no traps.
 * Symbols that the archive needs: memset and memcpy. It has no others, no constructors and no writable data.
 *
 * Stack in bytes, on x86-64, as compiled for release, all that a call calls included, the greater of what was counted and what was painted
 * (docs/SPEED.md), of words where the depths differ: response 1,344, peaks 5,737, fit_operator 2,224, refine 7,320, refine_with 2,616,
 * refine_list 6,904, refine_list_fallback_with 2,552, merge 288, merge_heads 96, tie 2,032, graymap 152 and 232, salvage 82,
 * coverage 56 to 88, gradient 496; refine_list_fallback 11,576, more than
 * any other, since it builds two operators. No call recurses. Scratch: only the merge asks for any, heads and links.
 *
 * Numbers:
 *    0 Accepted        1 Rejected: the first fit lies outside the box about the seed
 *    2 OutOfBounds: the patch at the rounded seed leaves the image
 *    3 IllConditioned: no fit operator (radius 0)
 *    4 BadSeed: x or y of the seed is NaN or infinite
 *    5 AboveMargin: the determinant of the first fit is above -det_margin
 *    6 TooSmall: its magnitude is below min_abs_det
 *    7 NotFinite: the offset of the first fit is not finite
 *   10 BadImage: width or height outside 1..4096, pitch outside width..8192, or a count that is not pitch times height
 *      (of a response: width times height; of a tile: its side squared)
 *   11 BadRadius: refiner radius above 7, ring radius outside 1..10, window radius outside 1..8
 *   12 BadLimit: a float setting that is not finite or below zero (the peak threshold may be below zero)
 *   13 BadRing: a ring component beyond the ring radius; of the gradient, a ring or a cross that leaves the tile
 *   14 EmptyRoi: x0 >= x1 or y0 >= y1
 *   15 BadOut: a response buffer not of the clamped region's size; a refine output shorter than its input, or fewer pass
 *      bytes than corners; an output of the salvage shorter than what goes into it; a grid without two numbers for each
 *      cell of a tile
 *   16 TooMany: over 4,096 corners or whole records, a corner added to 4,096, or more peaks than the output holds
 *   17 GridTooBig: more cells of the merge than heads, or than 64 bits count
 *   18 BadScratch: fewer links than corners
 *   19 BadLength: a list of corners that is not made of whole triples
 *   20 NoMagic: a file that does not begin with P5 and a whitespace byte
 *   21 BadHeader: a header number missing, not decimal digits or not followed by whitespace, or a maximum outside 1..255
 *      (of a deep graymap: outside 256..4095)
 *   22 BadGraymapSize: width or height of a graymap outside 1..4096, however many digits it has
 *   23 TooShort: fewer bytes behind the header than pixels
 *   24 AboveMaximum: a sample above the maximum
 *   25 LeftOver: bytes after the last pixel
 *   26 BadSample: a sample of an image of words above 4095, whatever the padding holds; straight after 10
 *   27 BadBuffer: samples of a deep graymap to a buffer that is not exactly width times height
 *   30 BadBoard: rows or columns outside 2..32, or places or answers that are not one an inner corner
 *   31 BadPlaces: a limit or a place that is not finite, or a limit below zero
 *   32 BadList: corners to be tied that are not whole triples, or over 4,096 of them
 *   33 NoCorner: no corner within the limit of a place
 *   34 UsedTwice: the nearest corner of a place serves an earlier one
 *   35 NoSuchCorner: a number that is not in the list
 */
#ifndef CHESS_CORNERS_H
#define CHESS_CORNERS_H

#include <stddef.h>
#include <stdint.h>

/* ---- version */
#define CHESS_CORNERS_VERSION_MAJOR 1
#define CHESS_CORNERS_VERSION_MINOR 0
#define CHESS_CORNERS_VERSION_PATCH 0
#define CHESS_CORNERS_VERSION "1.0.0"

/* ---- limits and sizes of arrays, in elements */
#define CHESS_CORNERS_MOST_SIZE 4096     /* width or height of an image */
#define CHESS_CORNERS_MOST_PITCH 8192    /* samples from row to row */
#define CHESS_CORNERS_MOST_SAMPLE 4095   /* of an image of words */
#define CHESS_CORNERS_MOST_CORNERS 4096  /* of a list; three floats each */
#define CHESS_CORNERS_MOST_LIST 12288    /* floats of the longest list */
#define CHESS_CORNERS_MOST_RADIUS 7      /* of the refiner */
#define CHESS_CORNERS_MOST_RING_RADIUS 10
#define CHESS_CORNERS_MOST_WINDOW_RADIUS 8
#define CHESS_CORNERS_RING_LEN 32        /* sixteen pairs dx, dy */
#define CHESS_CORNERS_COLUMNS_LEN 1125   /* of an operator */
#define CHESS_CORNERS_OVERLAP_LEN 225
#define CHESS_CORNERS_MOST_SQUARES 32    /* rows or columns of a board */
#define CHESS_CORNERS_MOST_PLACES 961    /* inner corners of the largest board */
#define CHESS_CORNERS_COVERAGE_LEN 65    /* 64 tiles, then those in none */
#define CHESS_CORNERS_RECORD_LEN 12      /* bytes of a record of a corner file */
#define CHESS_CORNERS_MOST_FAULTS 8194   /* numbers that serve every salvage */

/* ---- the rings of radius 5 and 10, clockwise from the top: const int32_t ring[32] = CHESS_CORNERS_RING5; */
#define CHESS_CORNERS_RING5 \
    {0, -5, 2, -5, 3, -3, 5, -2, 5, 0, 5, 2, 3, 3, 2, 5, 0, 5, -2, 5, -3, 3, -5, 2, -5, 0, -5, -2, -3, -3, -2, -5}
#define CHESS_CORNERS_RING10 \
    {0, -10, 4, -10, 6, -6, 10, -4, 10, 0, 10, 4, 6, 6, 4, 10, \
     0, 10, -4, 10, -6, 6, -10, 4, -10, 0, -10, -4, -6, -6, -4, -10}

/* A number that nobody looks at is a warning. */
#if defined(__cplusplus) && __cplusplus >= 201703L
#define CHESS_CORNERS_MUST_USE [[nodiscard]]
#elif defined(__GNUC__) || defined(__clang__)
#define CHESS_CORNERS_MUST_USE __attribute__((warn_unused_result))
#else
#define CHESS_CORNERS_MUST_USE
#endif

#ifdef __cplusplus
extern "C" {
#endif

enum chess_corners_number {
    CHESS_CORNERS_ACCEPTED = 0,
    CHESS_CORNERS_REJECTED = 1,
    CHESS_CORNERS_OUT_OF_BOUNDS = 2,
    CHESS_CORNERS_ILL_CONDITIONED = 3,
    CHESS_CORNERS_BAD_SEED = 4,
    CHESS_CORNERS_ABOVE_MARGIN = 5,
    CHESS_CORNERS_TOO_SMALL = 6,
    CHESS_CORNERS_NOT_FINITE = 7,
    CHESS_CORNERS_BAD_IMAGE = 10,
    CHESS_CORNERS_BAD_RADIUS = 11,
    CHESS_CORNERS_BAD_LIMIT = 12,
    CHESS_CORNERS_BAD_RING = 13,
    CHESS_CORNERS_EMPTY_ROI = 14,
    CHESS_CORNERS_BAD_OUT = 15,
    CHESS_CORNERS_TOO_MANY = 16,
    CHESS_CORNERS_GRID_TOO_BIG = 17,
    CHESS_CORNERS_BAD_SCRATCH = 18,
    CHESS_CORNERS_BAD_LENGTH = 19,
    CHESS_CORNERS_NO_MAGIC = 20,
    CHESS_CORNERS_BAD_HEADER = 21,
    CHESS_CORNERS_BAD_GRAYMAP_SIZE = 22,
    CHESS_CORNERS_TOO_SHORT = 23,
    CHESS_CORNERS_ABOVE_MAXIMUM = 24,
    CHESS_CORNERS_LEFT_OVER = 25,
    CHESS_CORNERS_BAD_SAMPLE = 26,
    CHESS_CORNERS_BAD_BUFFER = 27,
    CHESS_CORNERS_BAD_BOARD = 30,
    CHESS_CORNERS_BAD_PLACES = 31,
    CHESS_CORNERS_BAD_LIST = 32,
    CHESS_CORNERS_NO_CORNER = 33,
    CHESS_CORNERS_USED_TWICE = 34,
    CHESS_CORNERS_NO_SUCH_CORNER = 35
};

/* The number for a reader that knows 3 alone for every refused fit: 3 for 5, 6 and 7, every other number itself. */
CHESS_CORNERS_MUST_USE
uint32_t chess_corners_old_number(uint32_t number);

/* The ChESS response of the region (x0, y0) up to but without (x1, y1), clamped to the image, row after row.
 * ring: sixteen pairs dx, dy. out: exactly the clamped region's elements, all of which are written, +0.0 where
 * the ring does not fit. out_width, out_height: the clamped size; both 0, with an empty out, where nothing of the
 * region lies in the image. Returns 0, 10, 11, 13, 14, 15. */
CHESS_CORNERS_MUST_USE
uint32_t chess_corners_response(const uint8_t *img, size_t img_len, size_t width, size_t height, size_t pitch,
                                const int32_t ring[32], size_t radius,
                                size_t x0, size_t y0, size_t x1, size_t y1,
                                float *out, size_t out_len, size_t *out_width, size_t *out_height);

/* The peaks of a response of width times height values: x, y and value of each, by row, to the front of out; its
 * other elements stay. count: how many peaks. A peak is greater than every earlier value of its window, by row, and at
 * least equal to every later one, so of equal neighbours the first; a NaN is none and leaves none beside it.
 * refine_radius widens the border by the refiner's patch.
 * Returns 0, 10 (the response takes the image's place), 11, 12, 19 (out_len is no multiple of 3), 16. */
CHESS_CORNERS_MUST_USE
uint32_t chess_corners_peaks(const float *response, size_t response_len, size_t width, size_t height,
                             size_t ring_radius, size_t window_radius, size_t refine_radius,
                             float threshold, uint32_t min_cluster_size,
                             float *out, size_t out_len, size_t *count);

/* The operator of a refiner radius, for chess_corners_refine_with. columns: the first 5 times (2 radius + 1)^2 are
 * written and the rest stays; overlap: all. Returns 0, 3 where there is none (radius 0), 11; on 3 and 11 nothing
 * is written. */
CHESS_CORNERS_MUST_USE
uint32_t chess_corners_fit_operator(size_t radius, float columns[1125], float overlap[225]);

/* Refines one seed. wanted: 0, or not 0 for a covariance.
 * 0 to 7 write place: x, y and score (1 to 7: the seed's own x and y, bit for bit; the score is 0.0 for 2, 3 and 4, and for
 * 1, 5, 6 and 7 the determinant of the first fit). 0 alone writes state: converged (0 or 1), tries (0 to 64), and whether there
 * is a covariance (0 or 1), and where there is one covariance: xx, xy and yy for unit noise.
 * Returns 0, 10, 11, 12, 4, 2, 3, 5, 6, 7, 1. */
CHESS_CORNERS_MUST_USE
uint32_t chess_corners_refine(const uint8_t *img, size_t img_len, size_t width, size_t height, size_t pitch,
                              size_t radius, float det_margin, float max_offset, float min_abs_det,
                              float x, float y, uint32_t wanted,
                              float place[3], uint32_t state[3], float covariance[3]);

/* The same with an operator that was built before, so that many seeds share it. With the operator of the same
 * radius, built with 0, the answer is that of chess_corners_refine; with other contents it is the answer for
 * those. At radius 0 there is no operator, whatever is lent: 3, with the score 0.0, where 4 and 2 are not given. */
CHESS_CORNERS_MUST_USE
uint32_t chess_corners_refine_with(const uint8_t *img, size_t img_len, size_t width, size_t height, size_t pitch,
                                   size_t radius, float det_margin, float max_offset, float min_abs_det,
                                   float x, float y, uint32_t wanted,
                                   const float columns[1125], const float overlap[225],
                                   float place[3], uint32_t state[3], float covariance[3]);

/* Refines corners, x, y and strength of each, and writes those that are accepted, in input order with their own
 * strength, to the front of out; its other elements stay. A corner that one seed's call answers with 1 to 7 is left out.
 * out_len: corners_len or more. count: how many.
 * Returns 0, 10, 11, 12, 19, 16, 15. */
CHESS_CORNERS_MUST_USE
uint32_t chess_corners_refine_list(const uint8_t *img, size_t img_len, size_t width, size_t height, size_t pitch,
                                   size_t radius, float det_margin, float max_offset, float min_abs_det,
                                   const float *corners, size_t corners_len,
                                   float *out, size_t out_len, size_t *count);

/* Refines corners with a second try: one that the first settings do not accept starts again from its own place with the
 * second ones (second_...). Those that either accepts are written as by chess_corners_refine_list, in input order with
 * their own strength, the first's with the same bits, and a byte for each to the front of passes: 1 or 2, which settings it was.
 * Elements past the last record and bytes past the last one stay. Both settings are tested before any corner is tried.
 * With equal settings the records are those of chess_corners_refine_list. out_len: corners_len or more.
 * passes_len: one a corner or more. count: how many.
 * It builds the operators of both radii on the stack, and takes more of it than any other call (above): where there is
 * less, lend them to chess_corners_refine_list_fallback_with.
 * Returns 0, 10, 11 for either radius, 12 for either setting, 19, 16, 15. */
CHESS_CORNERS_MUST_USE
uint32_t chess_corners_refine_list_fallback(const uint8_t *img, size_t img_len, size_t width, size_t height, size_t pitch,
                                            size_t radius, float det_margin, float max_offset, float min_abs_det,
                                            size_t second_radius, float second_det_margin, float second_max_offset,
                                            float second_min_abs_det, const float *corners, size_t corners_len,
                                            float *out, size_t out_len, uint8_t *passes, size_t passes_len,
                                            size_t *count);

/* The same with the columns of two operators that were built before (chess_corners_fit_operator; the overlaps are not
 * needed). With those of the two radii, built with 0, the answer is that of chess_corners_refine_list_fallback; with other
 * contents it is the answer for those. At radius 0 there is no operator, whatever is lent: these settings accept none. */
CHESS_CORNERS_MUST_USE
uint32_t chess_corners_refine_list_fallback_with(const uint8_t *img, size_t img_len, size_t width, size_t height,
                                                 size_t pitch, size_t radius, float det_margin, float max_offset,
                                                 float min_abs_det, size_t second_radius, float second_det_margin,
                                                 float second_max_offset, float second_min_abs_det,
                                                 const float columns[1125], const float second_columns[1125],
                                                 const float *corners, size_t corners_len, float *out, size_t out_len,
                                                 uint8_t *passes, size_t passes_len, size_t *count);

/* Merges corners, x, y and strength of each, that lie within the radius of each other, in place: the kept ones
 * stand at the front and the rest of the list is +0.0. heads: one a cell of the grid, which has (floor(w / radius) + 1) times
 * (floor(h / radius) + 1) of them for corners in a box of w by h; chess_corners_merge_heads counts them. links: one a corner. A merge on the grid leaves heads and links all zero, whatever they held; that is
 * every merge of one corner or more with finite places, and a NaN place stays on the grid too. They are as they were with
 * an empty list, with a radius that merges nothing (NaN, infinite, 0 or less), and where a place is infinite or no place has a number
 * along an axis, which is scanned without a grid. count: how many are kept.
 * Returns 0, 19, 16, 18, 17. */
CHESS_CORNERS_MUST_USE
uint32_t chess_corners_merge(float *corners, size_t corners_len, float radius,
                             uint16_t *heads, size_t heads_len, uint16_t *links, size_t links_len,
                             size_t *count);

/* How many heads chess_corners_merge wants for these corners at this radius: with fewer it returns 17, with as many or more it does not. 0
 * where it has no grid: an empty list, a radius that merges nothing, a box that is not finite. heads: how many.
 * Returns 0, 19, 16, 17 (more cells than 64 bits count). */
CHESS_CORNERS_MUST_USE
uint32_t chess_corners_merge_heads(const float *corners, size_t corners_len, float radius, size_t *heads);

/* Ties to each inner corner of a board of rows by columns squares, 2 to 32 each, the corner that is nearest to its
 * place. places: x and y predicted for each inner corner, (rows - 1) times (columns - 1) of them, by row. limit: on the
 * squared distance dx dx + dy dy, inclusive; a NaN distance is passed over, of equal ones the lowest corner number
 * is taken. corners: x, y and strength of each, at most 4,096. answers: one a place; 0 writes all of them, the number
 * of each place's corner from 0, and no two are the same. place: 33 and 34 write it, the number of the first place at
 * fault, by row from 0: row place / (columns - 1), column place % (columns - 1).
 * Returns 0, 30, 31, 32, then place by place 33, 34. */
CHESS_CORNERS_MUST_USE
uint32_t chess_corners_tie(size_t rows, size_t columns, const float *places, size_t places_len, float limit,
                           const float *corners, size_t corners_len,
                           uint16_t *answers, size_t answers_len, size_t *place);

/* Reads a binary graymap (Netpbm P5): P5 and a whitespace byte (space, TAB, LF, CR), then width, height and maximum in
 * decimal digits, each with whitespace and comments before it (# hides all up to the next LF or CR) and one whitespace
 * byte straight after it, then one byte a pixel, each at most the maximum, and no more. 0 writes width, height,
 * maximum, and start, how far into the file the pixels begin: file + start is an image of width times height bytes with
 * pitch width. 24 writes pixel alone, the number of the first pixel above the maximum, by row from 0.
 * Returns 0, 20, 21, 22, 23, 24, 25. */
CHESS_CORNERS_MUST_USE
uint32_t chess_corners_graymap(const uint8_t *file, size_t file_len, size_t *width, size_t *height, size_t *maximum,
                               size_t *start, size_t *pixel);

/* Saves the records of a corner file that can be used. A record is twelve bytes, x, y and strength, each the bits of a
 * binary32, low byte first; there is no header. One is kept where all three are finite and 0 <= x <= width - 1 and
 * 0 <= y <= height - 1 in binary32; -0.0 is inside. 0 writes the kept records to the front of out, in order and to the
 * bit, and to the front of faults a pair for each other record, in order: its number in the file, from 0, and the
 * reason: 1 cut, 2 not finite, 3 outside, the first of them that is so; a cut record stands at the end of the file, and
 * its number is how many whole ones there are. What lies behind stays, in both. kept, dropped: how many of each;
 * together they are all records, the cut one too. out_len: 12 kept or more; faults_len: 2 dropped or more. file_len and
 * 2 (file_len / 12 + 1) always serve, as do 49,152 and 8,194.
 * Returns 0, 10 (the sizes alone), 16 (over 4,096 whole records), 15. */
CHESS_CORNERS_MUST_USE
uint32_t chess_corners_salvage(const uint8_t *file, size_t file_len, size_t width, size_t height,
                               uint8_t *out, size_t out_len, uint16_t *faults, size_t faults_len,
                               size_t *kept, size_t *dropped);

/* Coverage: how many corners of a list lie in each of the eight by eight tiles of an image of width by height. The list
 * has room for 4,096 corners, x, y and strength of each; the first count are there, and no call looks at the others.
 * counts: the 64 tiles by row, then those outside or not finite. A corner is inside where the floor of x is in
 * 0..width-1 and that of y in 0..height-1, so at -0.0 and at width - 0.5 and not at -0.5; its tile is in column
 * floor(x) 8 / width and row floor(y) 8 / height, both in whole numbers. The strength may be anything.
 *
 * Afresh: 0 writes all 65 counts, whatever they held. Returns 0, 10 (the sizes alone), 16 (count over 4,096). */
CHESS_CORNERS_MUST_USE
uint32_t chess_corners_coverage(size_t width, size_t height, const float list[12288], size_t count,
                                uint16_t counts[65]);

/* The next three change the list and the counts with it: if the counts were the list's they are the new list's, and need
 * no counting afresh. Whatever they held, first the old corner's tile has one less (0 stays 0), then the new one's has
 * one more (65,535 stays); the other counts stay, and so do the elements of the list that are not named.
 *
 * One corner more: 0 writes it behind the others, and to count one more than it held. Returns 0, 10, 16 (count 4,096 or
 * more). */
CHESS_CORNERS_MUST_USE
uint32_t chess_corners_coverage_add(size_t width, size_t height, float list[12288], size_t *count, uint16_t counts[65],
                                    float x, float y, float strength);

/* Another corner in the place of corner number, from 0. Returns 0, 10, 16 (count over 4,096), 35 (number not below
 * count). */
CHESS_CORNERS_MUST_USE
uint32_t chess_corners_coverage_replace(size_t width, size_t height, float list[12288], size_t count,
                                        uint16_t counts[65], size_t number, float x, float y, float strength);

/* Corner number left out: the later ones move down by one, the record that is freed is +0.0, and count is one less.
 * Returns 0, 10, 16 (count over 4,096), 35 (number not below count). */
CHESS_CORNERS_MUST_USE
uint32_t chess_corners_coverage_drop(size_t width, size_t height, float list[12288], size_t *count,
                                     uint16_t counts[65], size_t number);

/* Adds to grid, which has two numbers for each cell of the tile, scale_x and scale_y times the gradient of the response at
 * the cell (x, y): how it moves with each sample. tile: side times side bytes, row after row; side may be any number.
 * ring: sixteen pairs (dx, dy). Every place of the ring and of the cross must lie on the tile, sideways too. Whole
 * coefficients; a product and a sum are rounded, one after the other, ring places in their order and then the cross's. A
 * cell that is no place stays as it was. An infinite scale makes a NaN where a coefficient is zero.
 * 0; 10, 13, 15. */
CHESS_CORNERS_MUST_USE
uint32_t chess_corners_gradient(const uint8_t *tile, size_t tile_len, size_t side, const int32_t ring[32], size_t x, size_t y,
                                float scale_x, float scale_y, float *grid, size_t grid_len);

/* ---- twelve bits: the same calls on an image of words, each sample 0 to 4095. They answer as the calls above do, by the
 * same rules, and one number more: 26 straight after 10. With samples up to 255 every answer has the bits of the call on
 * bytes. Each looks at all pixels of the image for 26 before it does anything else, also for one seed: where seeds are
 * refined one by one on a large image, that look takes most of the time, and a list is the call to make. */
CHESS_CORNERS_MUST_USE
uint32_t chess_corners_response_u16(const uint16_t *img, size_t img_len, size_t width, size_t height, size_t pitch,
                                    const int32_t ring[32], size_t radius,
                                    size_t x0, size_t y0, size_t x1, size_t y1,
                                    float *out, size_t out_len, size_t *out_width, size_t *out_height);

CHESS_CORNERS_MUST_USE
uint32_t chess_corners_refine_u16(const uint16_t *img, size_t img_len, size_t width, size_t height, size_t pitch,
                                  size_t radius, float det_margin, float max_offset, float min_abs_det,
                                  float x, float y, uint32_t wanted,
                                  float place[3], uint32_t state[3], float covariance[3]);

CHESS_CORNERS_MUST_USE
uint32_t chess_corners_refine_with_u16(const uint16_t *img, size_t img_len, size_t width, size_t height, size_t pitch,
                                       size_t radius, float det_margin, float max_offset, float min_abs_det,
                                       float x, float y, uint32_t wanted,
                                       const float columns[1125], const float overlap[225],
                                       float place[3], uint32_t state[3], float covariance[3]);

CHESS_CORNERS_MUST_USE
uint32_t chess_corners_refine_list_u16(const uint16_t *img, size_t img_len, size_t width, size_t height, size_t pitch,
                                       size_t radius, float det_margin, float max_offset, float min_abs_det,
                                       const float *corners, size_t corners_len,
                                       float *out, size_t out_len, size_t *count);

CHESS_CORNERS_MUST_USE
uint32_t chess_corners_refine_list_fallback_u16(const uint16_t *img, size_t img_len, size_t width, size_t height, size_t pitch,
                                                size_t radius, float det_margin, float max_offset, float min_abs_det,
                                                size_t second_radius, float second_det_margin, float second_max_offset,
                                                float second_min_abs_det, const float *corners, size_t corners_len,
                                                float *out, size_t out_len, uint8_t *passes, size_t passes_len,
                                                size_t *count);

CHESS_CORNERS_MUST_USE
uint32_t chess_corners_refine_list_fallback_with_u16(const uint16_t *img, size_t img_len, size_t width, size_t height,
                                                     size_t pitch, size_t radius, float det_margin, float max_offset,
                                                     float min_abs_det, size_t second_radius, float second_det_margin,
                                                     float second_max_offset, float second_min_abs_det,
                                                     const float columns[1125], const float second_columns[1125],
                                                     const float *corners, size_t corners_len, float *out, size_t out_len,
                                                     uint8_t *passes, size_t passes_len, size_t *count);

/* Reads a binary graymap with a maximum of 256 to 4095: as chess_corners_graymap, but that a pixel is two bytes, high
 * first. 0 writes its samples to out, which must have exactly width times height elements; else out stays as it was, and
 * 27 is the last refusal. Returns 0, 20, 21, 22, 23, 24, 25, 27. */
CHESS_CORNERS_MUST_USE
uint32_t chess_corners_graymap_u16(const uint8_t *file, size_t file_len, uint16_t *out, size_t out_len, size_t *width,
                                   size_t *height, size_t *maximum, size_t *start, size_t *pixel);

#ifdef __cplusplus
}
#endif

#endif
