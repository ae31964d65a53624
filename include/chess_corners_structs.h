/* The calls of chess_corners.h with image, settings and region as structs, by pointer. Every function here is one call of that header, of bytes or
 * of twelve-bit words as the image is: it has no code of its own beside the choice, keeps nothing and tests nothing. */
#ifndef CHESS_CORNERS_STRUCTS_H
#define CHESS_CORNERS_STRUCTS_H

#include "chess_corners.h"

#if defined(__cplusplus) || (defined(__STDC_VERSION__) && __STDC_VERSION__ >= 199901L)
#define CHESS_CORNERS_INLINE static inline
#elif defined(__GNUC__)
#define CHESS_CORNERS_INLINE static __inline__
#else
#define CHESS_CORNERS_INLINE static
#endif

/* An image: bytes, or words where that is not null, len of them; the pixel (x, y) is at y * pitch + x. */
struct chess_corners_image {
    const uint8_t *bytes;
    const uint16_t *words;
    size_t len, width, height, pitch;
};

/* From (x0, y0) up to but without (x1, y1). */
struct chess_corners_region {
    size_t x0, y0, x1, y1;
};

/* The refiner's settings, and the Rust's defaults: struct chess_corners_settings s = CHESS_CORNERS_SETTINGS; */
struct chess_corners_settings {
    size_t radius;
    float det_margin, max_offset, min_abs_det;
};
#define CHESS_CORNERS_SETTINGS {2, 1e-3f, 1.5f, 1e-4f}

/* The peak scan's settings, and the Rust's defaults. */
struct chess_corners_peak_settings {
    size_t ring_radius, window_radius, refine_radius;
    float threshold;
    uint32_t min_cluster_size;
};
#define CHESS_CORNERS_PEAK_SETTINGS {5, 2, 2, 0.0f, 2}

/* An operator, for many seeds. */
struct chess_corners_operator {
    float columns[CHESS_CORNERS_COLUMNS_LEN];
    float overlap[CHESS_CORNERS_OVERLAP_LEN];
};

/* A seed's answer: x, y, score; converged, tries, whether there is a covariance; xx, xy, yy. */
struct chess_corners_estimate {
    float place[3];
    uint32_t state[3];
    float covariance[3];
};

CHESS_CORNERS_MUST_USE
CHESS_CORNERS_INLINE uint32_t chess_corners_image_response(const struct chess_corners_image *i, const int32_t ring[32], size_t radius,
                                                           const struct chess_corners_region *r, float *out, size_t out_len,
                                                           size_t *out_width, size_t *out_height) {
    return i->words ? chess_corners_response_u16(i->words, i->len, i->width, i->height, i->pitch, ring, radius, r->x0, r->y0, r->x1, r->y1, out,
                                                 out_len, out_width, out_height)
                    : chess_corners_response(i->bytes, i->len, i->width, i->height, i->pitch, ring, radius, r->x0, r->y0, r->x1, r->y1, out, out_len,
                                             out_width, out_height);
}

CHESS_CORNERS_MUST_USE
CHESS_CORNERS_INLINE uint32_t chess_corners_response_peaks(const float *response, size_t response_len, size_t width, size_t height,
                                                           const struct chess_corners_peak_settings *s, float *out, size_t out_len, size_t *count) {
    return chess_corners_peaks(response, response_len, width, height, s->ring_radius, s->window_radius, s->refine_radius, s->threshold,
                               s->min_cluster_size, out, out_len, count);
}

CHESS_CORNERS_MUST_USE
CHESS_CORNERS_INLINE uint32_t chess_corners_build_operator(size_t radius, struct chess_corners_operator *o) {
    return chess_corners_fit_operator(radius, o->columns, o->overlap);
}

CHESS_CORNERS_MUST_USE
CHESS_CORNERS_INLINE uint32_t chess_corners_image_refine(const struct chess_corners_image *i, const struct chess_corners_settings *s, float x, float y,
                                                         uint32_t wanted, struct chess_corners_estimate *e) {
    return i->words ? chess_corners_refine_u16(i->words, i->len, i->width, i->height, i->pitch, s->radius, s->det_margin, s->max_offset, s->min_abs_det,
                                               x, y, wanted, e->place, e->state, e->covariance)
                    : chess_corners_refine(i->bytes, i->len, i->width, i->height, i->pitch, s->radius, s->det_margin, s->max_offset, s->min_abs_det, x,
                                           y, wanted, e->place, e->state, e->covariance);
}

CHESS_CORNERS_MUST_USE
CHESS_CORNERS_INLINE uint32_t chess_corners_image_refine_with(const struct chess_corners_image *i, const struct chess_corners_settings *s,
                                                              const struct chess_corners_operator *o, float x, float y, uint32_t wanted,
                                                              struct chess_corners_estimate *e) {
    return i->words ? chess_corners_refine_with_u16(i->words, i->len, i->width, i->height, i->pitch, s->radius, s->det_margin, s->max_offset,
                                                    s->min_abs_det, x, y, wanted, o->columns, o->overlap, e->place, e->state, e->covariance)
                    : chess_corners_refine_with(i->bytes, i->len, i->width, i->height, i->pitch, s->radius, s->det_margin, s->max_offset,
                                                s->min_abs_det, x, y, wanted, o->columns, o->overlap, e->place, e->state, e->covariance);
}

CHESS_CORNERS_MUST_USE
CHESS_CORNERS_INLINE uint32_t chess_corners_image_refine_list(const struct chess_corners_image *i, const struct chess_corners_settings *s,
                                                              const float *corners, size_t corners_len, float *out, size_t out_len, size_t *count) {
    return i->words ? chess_corners_refine_list_u16(i->words, i->len, i->width, i->height, i->pitch, s->radius, s->det_margin, s->max_offset,
                                                    s->min_abs_det, corners, corners_len, out, out_len, count)
                    : chess_corners_refine_list(i->bytes, i->len, i->width, i->height, i->pitch, s->radius, s->det_margin, s->max_offset,
                                                s->min_abs_det, corners, corners_len, out, out_len, count);
}

CHESS_CORNERS_MUST_USE
CHESS_CORNERS_INLINE uint32_t chess_corners_image_refine_list_fallback_with(const struct chess_corners_image *i, const struct chess_corners_settings *s,
                                                                            const struct chess_corners_settings *t, const struct chess_corners_operator *o,
                                                                            const struct chess_corners_operator *p, const float *corners,
                                                                            size_t corners_len, float *out, size_t out_len, uint8_t *passes,
                                                                            size_t passes_len, size_t *count) {
    return i->words ? chess_corners_refine_list_fallback_with_u16(i->words, i->len, i->width, i->height, i->pitch, s->radius, s->det_margin,
                                                                  s->max_offset, s->min_abs_det, t->radius, t->det_margin, t->max_offset,
                                                                  t->min_abs_det, o->columns, p->columns, corners, corners_len, out, out_len, passes,
                                                                  passes_len, count)
                    : chess_corners_refine_list_fallback_with(i->bytes, i->len, i->width, i->height, i->pitch, s->radius, s->det_margin, s->max_offset,
                                                              s->min_abs_det, t->radius, t->det_margin, t->max_offset, t->min_abs_det, o->columns,
                                                              p->columns, corners, corners_len, out, out_len, passes, passes_len, count);
}

#endif
