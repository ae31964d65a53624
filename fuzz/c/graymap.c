/* Graymaps: whole files, cut ones, and ones with a byte that is another. */
#include "groups.h"

#include <string.h>

enum { FILE_BLOCK, WIDTH, HEIGHT, MAXIMUM, START, PIXEL };
enum { OUT = 1, DEEP_WIDTH, DEEP_PIXEL = 6, MOST_FILE = 32768 };

/* What is drawn of a file before it is spoilt. */
struct file {
    unsigned char *bytes;
    size_t len, header;
    size_t maximum;
};

static void put(struct file *f, unsigned char byte) {
    if (f->len < MOST_FILE) f->bytes[f->len++] = byte;
}

static void put_text(struct file *f, const char *text) {
    while (*text) put(f, (unsigned char)*text++);
}

static unsigned char space(struct random *r) {
    return (unsigned char)" \t\n\r"[below(r, 4)];
}

/* Whitespace and comments, also none. */
static void put_gap(struct file *f, struct random *r) {
    while (one_in(r, 3)) put(f, space(r));
    if (!one_in(r, 5)) return;
    put_text(f, "# 5 5");
    put(f, one_in(r, 2) ? '\n' : '\r');
}

static void put_number(struct file *f, struct random *r, size_t number) {
    char digits[24];
    size_t at = sizeof digits - 1;
    digits[at] = 0;
    do digits[--at] = (char)('0' + number % 10);
    while ((number /= 10) > 0);
    put_gap(f, r);
    while (one_in(r, 8)) put(f, '0');
    put_text(f, digits + at);
    put(f, space(r));
}

static size_t draw_side(struct random *r) {
    static const size_t odd[] = {0, 4096, 4097, 65537, SIZE_MAX};
    return one_in(r, 40) ? odd[below(r, sizeof odd / sizeof odd[0])] : between(r, 1, 12);
}

static void put_header(struct trial *t, struct file *f) {
    struct random *r = &t->random;
    int deep = t->call->deep;
    put_text(f, one_in(r, 30) ? "P6" : "P5");
    put(f, one_in(r, 60) ? '#' : space(r));
    t->width = draw_side(r);
    t->height = draw_side(r);
    f->maximum = deep ? between(r, 256, 4095) : between(r, 1, 255);
    if (one_in(r, 30)) f->maximum = deep ? (one_in(r, 2) ? 255 : 4096) : (one_in(r, 2) ? 0 : 256);
    put_number(f, r, t->width);
    put_number(f, r, t->height);
    put_number(f, r, f->maximum);
    f->header = f->len;
}

static void put_sample(struct file *f, int deep, size_t sample) {
    if (deep) put(f, (unsigned char)(sample >> 8));
    put(f, (unsigned char)sample);
}

/* As many samples as the header says, but for a size that is refused. */
static void put_samples(struct trial *t, struct file *f) {
    struct random *r = &t->random;
    size_t count = t->width <= 4097 && t->height <= 4097 ? t->width * t->height : 3;
    if (count > MOST_FILE) count = MOST_FILE / 4;
    for (size_t i = 0; i < count; i++) put_sample(f, t->call->deep, below(r, f->maximum + 1));
    if (count && one_in(r, 12)) f->bytes[f->header + below(r, f->len - f->header)] = 255;
}

static void spoil(struct random *r, struct file *f) {
    size_t at = below(r, f->header);
    switch (below(r, 24)) {
    case 0: f->len = below(r, f->len + 1); break;
    case 1: f->len -= 1; break;
    case 2: put(f, (unsigned char)draw(r)); break;
    case 3: put(f, 0), put(f, 0); break;
    case 4: f->bytes[at] = (unsigned char)draw(r); break;
    case 5: f->bytes[at] = (unsigned char)"0#\n 9P"[below(r, 6)]; break;
    default: break;
    }
}

static void lend_file(struct trial *t) {
    struct file f = {NULL, 0, 0, 0};
    f.bytes = t->spare;
    put_header(t, &f);
    put_samples(t, &f);
    spoil(&t->random, &f);
    memcpy(lend(t, INPUT, BYTES, f.len), f.bytes, f.len);
}

static void lend_answers(struct trial *t) {
    for (size_t i = 0; i < 5; i++) lend(t, OUTPUT, SIZES, 1);
}

void draw_graymap(struct trial *t) {
    lend_file(t);
    lend_answers(t);
}

void draw_graymap_deep(struct trial *t) {
    size_t count;
    lend_file(t);
    count = t->width <= 4096 && t->height <= 4096 ? t->width * t->height : 0;
    lend(t, OUTPUT, WORDS, near_len(t, count <= MOST_FILE ? count : 0));
    lend_answers(t);
}

uint32_t make_graymap(const struct trial *t) {
    return chess_corners_graymap(AT(uint8_t, FILE_BLOCK), LEN(FILE_BLOCK), AT(size_t, WIDTH), AT(size_t, HEIGHT), AT(size_t, MAXIMUM),
                                 AT(size_t, START), AT(size_t, PIXEL));
}

uint32_t make_graymap_u16(const struct trial *t) {
    return chess_corners_graymap_u16(AT(uint8_t, FILE_BLOCK), LEN(FILE_BLOCK), AT(uint16_t, OUT), LEN(OUT), AT(size_t, DEEP_WIDTH),
                                     AT(size_t, DEEP_WIDTH + 1), AT(size_t, DEEP_WIDTH + 2), AT(size_t, DEEP_WIDTH + 3), AT(size_t, DEEP_PIXEL));
}

/* 0 writes all but the pixel, 24 the pixel alone. */
static size_t written_file(const struct trial *t, uint32_t number, size_t block, size_t pixel) {
    return number == (block == pixel ? 24 : 0) ? LEN(block) : 0;
}

size_t written_graymap(const struct trial *t, uint32_t number, size_t block) {
    return written_file(t, number, block, PIXEL);
}

size_t written_graymap_deep(const struct trial *t, uint32_t number, size_t block) {
    return written_file(t, number, block, DEEP_PIXEL);
}
