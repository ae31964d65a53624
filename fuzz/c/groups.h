/* The calls by group: how inputs are drawn, what is written, and the call itself. */
#ifndef FUZZ_GROUPS_H
#define FUZZ_GROUPS_H

#include "trial.h"

typedef uint32_t make_call(const struct trial *t);
typedef void draw_call(struct trial *t);
typedef size_t written_by(const struct trial *t, uint32_t number, size_t block);

draw_call draw_old_number, draw_response, draw_peaks, draw_fit_operator, draw_refine, draw_refine_with, draw_refine_list, draw_fallback,
    draw_fallback_with, draw_merge, draw_merge_heads, draw_tie, draw_graymap, draw_graymap_deep, draw_salvage, draw_coverage, draw_coverage_add,
    draw_coverage_replace, draw_coverage_drop, draw_gradient;

make_call make_old_number, make_response, make_peaks, make_fit_operator, make_refine, make_refine_with, make_refine_list, make_fallback,
    make_fallback_with, make_merge, make_merge_heads, make_tie, make_graymap, make_salvage, make_coverage, make_coverage_add,
    make_coverage_replace, make_coverage_drop, make_gradient, make_response_u16, make_refine_u16, make_refine_with_u16, make_refine_list_u16,
    make_fallback_u16, make_fallback_with_u16, make_graymap_u16;

written_by written_peaks, written_fit_operator, written_refine, written_refine_with, written_refine_list, written_fallback, written_fallback_with,
    written_tie, written_graymap, written_graymap_deep, written_salvage;

/* A block as the type that the call takes. */
#define AT(type, index) ((type *)(void *)t->block[index].at)
#define LEN(index) (t->block[index].len)

#endif
