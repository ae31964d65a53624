#include "picture.h"

#include <errno.h>
#include <math.h>
#include <stdlib.h>
#include <string.h>

static const int32_t RING5[32] = CHESS_CORNERS_RING5;
static const int32_t RING10[32] = CHESS_CORNERS_RING10;

/* ---- words of a refusal */
static const char *name_of(uint32_t number) {
    static const char *const names[] = {"BadImage", "BadRadius", "BadLimit", "BadRing", "EmptyRoi", "BadOut", "TooMany", "GridTooBig",
        "BadScratch", "BadLength", "NoMagic", "BadHeader", "BadGraymapSize", "TooShort", "AboveMaximum", "LeftOver", "BadSample", "BadBuffer",
        "?", "?", "BadBoard", "BadPlaces", "BadList", "NoCorner", "UsedTwice", "NoSuchCorner"};
    return 10 <= number && number <= 35 ? names[number - 10] : "?";
}

int refused(const char *step, uint32_t number, const char *fault) {
    printf("refused %s %lu %s%s%s\n", step, (unsigned long)number, name_of(number), fault ? ": " : "", fault ? fault : "");
    return REFUSED;
}

int ended(int status, const char *program) {
    if (fflush(stdout) == 0 && !ferror(stdout)) return status;
    fprintf(stderr, "%s: standard output cannot be written: %s\n", program, strerror(errno));
    return FAILED;
}

static int failed(const char *program, const char *what) {
    fprintf(stderr, "%s: %s\n", program, what);
    return FAILED;
}

/* ---- settings */
void defaults(struct settings *s) {
    static const struct chess_corners_peak_settings peaks = CHESS_CORNERS_PEAK_SETTINGS;
    static const struct chess_corners_settings refine = CHESS_CORNERS_SETTINGS;
    s->ring = 5;
    s->peaks = peaks;
    s->refine = refine;
    s->merge = 2.0f;
    s->bits = 0;
}

void tell_settings(FILE *to) {
    fputs("  ring=5            5 or 10: the radius of the ring of the response\n"
          "  window=2          1 to 8: a peak is the greatest of a square of that radius\n"
          "  threshold=0       any number: a peak's value exceeds it, and 0; 200 suits a picture of bytes with noise\n"
          "  cluster=2         0 or more: so many other values of the window are above zero\n"
          "  radius=2          1 to 7: half the patch of the refiner\n"
          "  offset=1.5        0 or more: how far from its peak a corner may lie on each axis\n"
          "  margin=0.001      0 or more: a saddle's determinant is at most minus this\n"
          "  least=0.0001      0 or more: and of at least this magnitude\n"
          "  merge=2           any number: corners so near become one; 0 merges nothing\n"
          "  bits              numbers as the eight digits of their bits and not in decimal\n",
          to);
}

/* A decimal number that is all of the text. */
static int whole(const char *text, size_t most, size_t *n) {
    char *end;
    unsigned long v;
    if (text[0] < '0' || text[0] > '9') return 0;
    errno = 0;
    v = strtoul(text, &end, 10);
    *n = v;
    return errno == 0 && *end == 0 && v <= most;
}

static int number(const char *text, float *x) {
    char *end;
    *x = strtof(text, &end);
    return end != text && *end == 0 && isfinite(*x);
}

static int set_value(struct settings *s, const char *name, const char *value) {
    size_t n = 0;
    if (strcmp(name, "ring") == 0) return whole(value, 10, &s->ring) && (s->ring == 5 || s->ring == 10);
    if (strcmp(name, "window") == 0) return whole(value, CHESS_CORNERS_MOST_WINDOW_RADIUS, &s->peaks.window_radius) && s->peaks.window_radius > 0;
    if (strcmp(name, "radius") == 0) return whole(value, CHESS_CORNERS_MOST_RADIUS, &s->refine.radius) && s->refine.radius > 0;
    if (strcmp(name, "cluster") == 0) {
        int good = whole(value, UINT32_MAX, &n);
        s->peaks.min_cluster_size = (uint32_t)n;
        return good;
    }
    if (strcmp(name, "threshold") == 0) return number(value, &s->peaks.threshold);
    if (strcmp(name, "offset") == 0) return number(value, &s->refine.max_offset) && s->refine.max_offset >= 0;
    if (strcmp(name, "margin") == 0) return number(value, &s->refine.det_margin) && s->refine.det_margin >= 0;
    if (strcmp(name, "least") == 0) return number(value, &s->refine.min_abs_det) && s->refine.min_abs_det >= 0;
    if (strcmp(name, "merge") == 0) return number(value, &s->merge);
    return 0;
}

int set(struct settings *s, const char *program, const char *word) {
    char name[16];
    const char *equals = strchr(word, '=');
    if (strcmp(word, "bits") == 0) return s->bits = 1;
    if (equals != NULL && equals > word && (size_t)(equals - word) < sizeof name) {
        memcpy(name, word, (size_t)(equals - word));
        name[equals - word] = 0;
        if (set_value(s, name, equals + 1)) return 1;
    }
    fprintf(stderr, "%s: %s is no setting, or not in its range; `%s help` lists them\n", program, word, program);
    return 0;
}

/* ---- the picture */
/* More than the largest graymap: 4096 by 4096 samples of two bytes, and a header with room for comments. */
enum { MOST_FILE = 2 * 4096 * 4096 + (1 << 20) };

/* The three numbers of a header that chess_corners_graymap would read; the library judges the file, this only sizes the buffer of a deep one. */
static int header_numbers(const uint8_t *file, size_t len, size_t numbers[3]) {
    size_t i = 2, k;
    for (k = 0; k < 3; k++) {
        while (i < len && (file[i] == '#' || file[i] == ' ' || (file[i] >= '\t' && file[i] <= '\r'))) {
            if (file[i] == '#')
                while (i < len && file[i] != '\n' && file[i] != '\r') i++;
            else
                i++;
        }
        for (numbers[k] = 0; i < len && file[i] >= '0' && file[i] <= '9' && numbers[k] <= 65535; i++) numbers[k] = 10 * numbers[k] + (file[i] - '0');
    }
    return numbers[0] <= CHESS_CORNERS_MOST_SIZE && numbers[1] <= CHESS_CORNERS_MOST_SIZE;
}

static int told(uint32_t no, size_t pixel, size_t width) {
    char fault[96];
    if (no != CHESS_CORNERS_ABOVE_MAXIMUM) return refused("graymap", no, NULL);
    if (width == 0) sprintf(fault, "pixel %lu", (unsigned long)pixel);
    else sprintf(fault, "pixel (%lu, %lu)", (unsigned long)(pixel % width), (unsigned long)(pixel / width));
    return refused("graymap", no, fault);
}

static int read_deep(struct picture *p, size_t len, const size_t numbers[3], const char *program) {
    struct chess_corners_image *i = &p->image;
    size_t count = numbers[0] * numbers[1], start, pixel = 0;
    uint32_t no;
    p->words = malloc((count ? count : 1) * sizeof *p->words);
    if (p->words == NULL) return failed(program, "there is no memory for the samples");
    no = chess_corners_graymap_u16(p->file, len, p->words, count, &i->width, &i->height, &p->maximum, &start, &pixel);
    if (no != CHESS_CORNERS_ACCEPTED) return told(no, pixel, numbers[0]);
    i->words = p->words;
    i->len = count;
    i->pitch = i->width;
    return DONE;
}

static int read_bytes(struct picture *p, size_t len, const size_t numbers[3]) {
    struct chess_corners_image *i = &p->image;
    size_t start, pixel = 0;
    uint32_t no = chess_corners_graymap(p->file, len, &i->width, &i->height, &p->maximum, &start, &pixel);
    if (no != CHESS_CORNERS_ACCEPTED) return told(no, pixel, numbers[0]);
    i->bytes = p->file + start;
    i->len = i->width * i->height;
    i->pitch = i->width;
    return DONE;
}

int read_picture(struct picture *p, const char *program) {
    size_t len, numbers[3];
    memset(p, 0, sizeof *p);
    p->file = malloc(MOST_FILE + 1);
    if (p->file == NULL) return failed(program, "there is no memory for the file");
    len = fread(p->file, 1, MOST_FILE + 1, stdin);
    if (ferror(stdin)) {
        fprintf(stderr, "%s: standard input cannot be read: %s\n", program, strerror(errno));
        return FAILED;
    }
    if (len > MOST_FILE) return failed(program, "standard input is longer than any graymap that can be read");
    if (len == 0) return failed(program, "standard input is empty: give it a graymap (Netpbm P5)");
    if (header_numbers(p->file, len, numbers) && numbers[2] > 255) return read_deep(p, len, numbers, program);
    return read_bytes(p, len, numbers);
}

void free_picture(struct picture *p) {
    free(p->words);
    free(p->file);
}

/* ---- the road */
/* Merges in place with as many heads as the list wants. */
static int merge(struct corners *c, float radius, const char *program) {
    static uint16_t links[CHESS_CORNERS_MOST_CORNERS];
    uint16_t *heads;
    size_t wanted = 0;
    uint32_t no = chess_corners_merge_heads(c->list, 3 * c->count, radius, &wanted);
    if (no == CHESS_CORNERS_ACCEPTED && wanted > SIZE_MAX / 4) no = CHESS_CORNERS_GRID_TOO_BIG;
    if (no != CHESS_CORNERS_ACCEPTED) return refused("merge", no, "the merge radius is too small for a grid over these corners");
    heads = malloc((wanted ? wanted : 1) * sizeof *heads);
    if (heads == NULL) return failed(program, "there is no memory for the grid of the merge: take a larger merge radius");
    no = chess_corners_merge(c->list, 3 * c->count, radius, heads, wanted, links, CHESS_CORNERS_MOST_CORNERS, &c->count);
    free(heads);
    return no == CHESS_CORNERS_ACCEPTED ? DONE : refused("merge", no, NULL);
}

static int from_response(const struct picture *p, const struct settings *s, float *response, struct corners *c, const char *program) {
    static float peaks[CHESS_CORNERS_MOST_LIST];
    const struct chess_corners_image *i = &p->image;
    struct chess_corners_region whole_image;
    struct chess_corners_peak_settings ps = s->peaks;
    size_t w, h, found, area = i->width * i->height;
    uint32_t no;
    whole_image.x0 = whole_image.y0 = 0;
    whole_image.x1 = i->width;
    whole_image.y1 = i->height;
    no = chess_corners_image_response(i, s->ring == 10 ? RING10 : RING5, s->ring, &whole_image, response, area, &w, &h);
    if (no != CHESS_CORNERS_ACCEPTED) return refused("response", no, NULL);
    ps.ring_radius = s->ring;
    ps.refine_radius = s->refine.radius;
    no = chess_corners_response_peaks(response, area, w, h, &ps, peaks, CHESS_CORNERS_MOST_LIST, &found);
    if (no == CHESS_CORNERS_TOO_MANY) return refused("peaks", no, "more than 4096 peaks: raise the threshold or the window");
    if (no != CHESS_CORNERS_ACCEPTED) return refused("peaks", no, NULL);
    no = chess_corners_image_refine_list(i, &s->refine, peaks, 3 * found, c->list, CHESS_CORNERS_MOST_LIST, &c->count);
    if (no != CHESS_CORNERS_ACCEPTED) return refused("refine", no, NULL);
    return merge(c, s->merge, program);
}

int find_corners(const struct picture *p, const struct settings *s, struct corners *c, const char *program) {
    float *response = malloc(p->image.width * p->image.height * sizeof *response);
    int status;
    if (response == NULL) return failed(program, "there is no memory for the response");
    status = from_response(p, s, response, c, program);
    free(response);
    return status;
}
