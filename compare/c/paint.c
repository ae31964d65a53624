/* The bytes of a painted stack that are written while an exported call runs: it has a thread of its own on memory that was
 * painted before, and the deepest byte that is another afterwards tells. What the thread takes is in them, and what the
 * caller does; compare/paint takes off what the same program takes where every call returns at once.
 *   paint FILE   FILE: examples/board.gray, 128 by 96 pixels */
#define _POSIX_C_SOURCE 200809L
#include "chess_corners.h"

#include <pthread.h>
#include <stdio.h>
#include <stdlib.h>
#include <string.h>

enum { WIDTH = 128, HEIGHT = 96, AREA = WIDTH * HEIGHT, MOST = 4096, STACK = 1 << 18, PAINT = 0xA5 };

static const int32_t RING[32] = {0, -5, 2, -5, 3, -3, 5, -2, 5, 0, 5, 2, 3, 3, 2, 5,
                                 0, 5, -2, 5, -3, 3, -5, 2, -5, 0, -5, -2, -3, -3, -2, -5};

static uint8_t img[AREA], graymap[AREA + 64], deep_graymap[2 * AREA + 64], passes[MOST], saved[12 * MOST], file[12 * MOST];
static uint8_t stack[STACK] __attribute__((aligned(4096)));
static float response[AREA], list[3 * MOST], out[3 * MOST], places[2 * 961], columns[1125], second[1125], overlap[225];
static float grid[2 * 21 * 21];
static uint16_t words[AREA], samples[AREA], heads[16384], links[MOST], answers[961], counts[65], faults[2 * MOST + 2];
static size_t graymap_len, deep_len, a, b, c, d, e;
static float place[3], covariance[3];
static uint32_t state[3], told;

/* Every pixel with a few thirds of a pixel beside it: seeds of every kind, near corners and far from them. */
static size_t seeds(void) {
    for (size_t i = 0; i < MOST; i++) {
        list[3 * i] = (float)(i % WIDTH) + 0.3f * (float)(i % 3);
        list[3 * i + 1] = (float)(3 * (i / WIDTH)) + 0.4f;
        list[3 * i + 2] = (float)(i % 97);
    }
    return 3 * MOST;
}

static void old_number(void) {
    for (uint32_t number = 0; number <= 40; number++) told = chess_corners_old_number(number);
}

static void responses(void) {
    told = chess_corners_response(img, AREA, WIDTH, HEIGHT, WIDTH, RING, 5, 0, 0, WIDTH, HEIGHT, response, AREA, &a, &b);
}

static void responses_u16(void) {
    told = chess_corners_response_u16(words, AREA, WIDTH, HEIGHT, WIDTH, RING, 5, 0, 0, WIDTH, HEIGHT, response, AREA, &a,
                                      &b);
}

static void peaks(void) {
    for (size_t room = 3; room <= 3 * MOST; room *= 16)
        told = chess_corners_peaks(response, AREA, WIDTH, HEIGHT, 5, 2, 2, 0.0f, 2, out, room, &a);
}

static void operators(void) {
    for (size_t radius = 0; radius <= 8; radius++) told = chess_corners_fit_operator(radius, columns, overlap);
}

/* An image, settings and a seed or a list, as each call of the refiner takes them. */
#define IMAGE(samples) samples, AREA, WIDTH, HEIGHT, WIDTH
#define SETTINGS radius, 1e-3f, 1.5f, 1e-4f
#define SEED list[3 * i], list[3 * i + 1], 1
#define PLACE place, state, covariance
#define LIST list, 3 * MOST, out, 3 * MOST

/* A seed in `step` at each radius; with a lent operator, which is built on the painted stack too and takes less of it. */
#define SEEDS(step)                                  \
    for (size_t radius = 1; radius <= 7; radius++) \
        for (size_t i = 0; i < MOST; i += step)

static void refine(void) {
    SEEDS(61) told = chess_corners_refine(IMAGE(img), SETTINGS, SEED, PLACE);
}

static void refine_u16(void) {
    SEEDS(61) told = chess_corners_refine_u16(IMAGE(words), SETTINGS, SEED, PLACE);
}

static void refine_with(void) {
    SEEDS(1) {
        if (i == 0) told = chess_corners_fit_operator(radius, columns, overlap);
        told = chess_corners_refine_with(IMAGE(img), SETTINGS, SEED, columns, overlap, PLACE);
    }
}

/* Each seed looks at the whole image for 26 first, so that fewer are taken. */
static void refine_with_u16(void) {
    SEEDS(7) {
        if (i == 0) told = chess_corners_fit_operator(radius, columns, overlap);
        told = chess_corners_refine_with_u16(IMAGE(words), SETTINGS, SEED, columns, overlap, PLACE);
    }
}

static void refine_list(void) {
    for (size_t radius = 1; radius <= 7; radius++)
        told = chess_corners_refine_list(IMAGE(img), SETTINGS, LIST, &a);
}

static void refine_list_u16(void) {
    for (size_t radius = 1; radius <= 7; radius++)
        told = chess_corners_refine_list_u16(IMAGE(words), SETTINGS, LIST, &a);
}

/* The second try at another radius, with limits that accept more. */
#define AGAIN 8 - radius, 0.0f, 4.0f, 0.0f

static void fallback(void) {
    for (size_t radius = 1; radius <= 7; radius++)
        told = chess_corners_refine_list_fallback(IMAGE(img), SETTINGS, AGAIN, LIST, passes, MOST, &a);
}

static void fallback_u16(void) {
    for (size_t radius = 1; radius <= 7; radius++)
        told = chess_corners_refine_list_fallback_u16(IMAGE(words), SETTINGS, AGAIN, LIST, passes, MOST, &a);
}

static void both_operators(size_t radius) {
    told = chess_corners_fit_operator(radius, columns, overlap);
    told = chess_corners_fit_operator(8 - radius, second, overlap);
}

static void fallback_with(void) {
    for (size_t radius = 1; radius <= 7; radius++) {
        both_operators(radius);
        told = chess_corners_refine_list_fallback_with(IMAGE(img), SETTINGS, AGAIN, columns, second, LIST, passes, MOST, &a);
    }
}

static void fallback_with_u16(void) {
    for (size_t radius = 1; radius <= 7; radius++) {
        both_operators(radius);
        told = chess_corners_refine_list_fallback_with_u16(IMAGE(words), SETTINGS, AGAIN, columns, second, LIST, passes, MOST,
                                                           &a);
    }
}

static void merge(void) {
    memcpy(out, list, sizeof out);
    told = chess_corners_merge(out, 3 * MOST, 2.0f, heads, 16384, links, MOST, &a);
}

static void merge_heads(void) { told = chess_corners_merge_heads(list, 3 * MOST, 2.0f, &a); }

static void tie(void) {
    told = chess_corners_tie(32, 32, places, 2 * 961, 2.0f, list, 3 * MOST, answers, 961, &a);
}

static void read_graymap(void) { told = chess_corners_graymap(graymap, graymap_len, &a, &b, &c, &d, &e); }

static void read_graymap_u16(void) {
    told = chess_corners_graymap_u16(deep_graymap, deep_len, samples, AREA, &a, &b, &c, &d, &e);
}

/* With room for any counts, and with just what goes in. */
static void salvage(void) {
    told = chess_corners_salvage(file, 12 * MOST, WIDTH, HEIGHT, saved, 12 * MOST, faults, 2 * MOST + 2, &a, &b);
    told = chess_corners_salvage(file, 12 * MOST, WIDTH, HEIGHT, saved, 12 * a, faults, 2 * b, &c, &d);
}

static void coverage(void) { told = chess_corners_coverage(WIDTH, HEIGHT, out, MOST, counts); }

static void coverage_add(void) {
    a = MOST - 1;
    told = chess_corners_coverage_add(WIDTH, HEIGHT, out, &a, counts, 5.5f, 6.5f, 1.0f);
}

static void coverage_replace(void) {
    told = chess_corners_coverage_replace(WIDTH, HEIGHT, out, MOST, counts, 7, 95.5f, 6.5f, 1.0f);
}

static void coverage_drop(void) {
    a = MOST;
    told = chess_corners_coverage_drop(WIDTH, HEIGHT, out, &a, counts, 0);
}

static void gradient(void) { told = chess_corners_gradient(img, 21 * 21, 21, RING, 10, 10, 0.75f, -1.5f, grid, 2 * 21 * 21); }

static void (*job)(void);

static void *work(void *unused) {
    job();
    return unused;
}

/* The bytes below the top that were written while f ran. */
static size_t used(void (*f)(void)) {
    pthread_attr_t attributes;
    pthread_t thread;
    size_t low = 0;
    memset(stack, PAINT, sizeof stack);
    job = f;
    if (pthread_attr_init(&attributes) != 0 || pthread_attr_setstack(&attributes, stack, sizeof stack) != 0 ||
        pthread_create(&thread, &attributes, work, NULL) != 0 || pthread_join(thread, NULL) != 0) {
        fputs("paint: no thread\n", stderr);
        exit(2);
    }
    while (low < sizeof stack && stack[low] == PAINT) low++;
    return sizeof stack - low;
}

static const struct { const char *name; void (*f)(void); } CALLS[] = {
    {"old_number", old_number}, {"response", responses}, {"response_u16", responses_u16}, {"peaks", peaks},
    {"fit_operator", operators}, {"refine", refine}, {"refine_u16", refine_u16}, {"refine_with", refine_with},
    {"refine_with_u16", refine_with_u16}, {"refine_list", refine_list}, {"refine_list_u16", refine_list_u16},
    {"refine_list_fallback", fallback}, {"refine_list_fallback_u16", fallback_u16},
    {"refine_list_fallback_with", fallback_with}, {"refine_list_fallback_with_u16", fallback_with_u16},
    {"merge", merge}, {"merge_heads", merge_heads}, {"tie", tie}, {"graymap", read_graymap},
    {"graymap_u16", read_graymap_u16}, {"salvage", salvage}, {"coverage", coverage},
    {"coverage_add", coverage_add}, {"coverage_replace", coverage_replace}, {"coverage_drop", coverage_drop},
    {"gradient", gradient}};

/* What the calls read: words of the same samples, graymaps of both depths, a corner file and places, all of the image and the list.
 * Every third record of the file lies outside. */
static void made_ready(void) {
    graymap_len = (size_t)sprintf((char *)graymap, "P5 %d %d 255\n", WIDTH, HEIGHT);
    memcpy(graymap + graymap_len, img, AREA);
    graymap_len += AREA;
    deep_len = (size_t)sprintf((char *)deep_graymap, "P5 %d %d 4095\n", WIDTH, HEIGHT);
    for (size_t i = 0; i < AREA; i++) {
        words[i] = img[i];
        deep_graymap[deep_len++] = 0;
        deep_graymap[deep_len++] = img[i];
    }
    memcpy(out, list, seeds() * sizeof *out);
    memcpy(file, list, sizeof file);
    for (size_t i = 3; i < 12 * MOST; i += 36) file[i] = 0xC0;
    for (size_t i = 0; i < 961; i++) {
        places[2 * i] = list[3 * i];
        places[2 * i + 1] = list[3 * i + 1];
    }
}

int main(int argc, char **argv) {
    FILE *picture = argc == 2 ? fopen(argv[1], "rb") : NULL;
    if (picture == NULL || fread(img, 1, AREA, picture) != AREA) {
        fputs("usage: paint examples/board.gray\n", stderr);
        return 2;
    }
    fclose(picture);
    made_ready();
    for (size_t i = 0; i < sizeof CALLS / sizeof *CALLS; i++) {
        size_t bytes = used(CALLS[i].f);
        printf("%zu chess_corners_%s %u\n", bytes, CALLS[i].name, (unsigned)told);
    }
    return 0;
}
