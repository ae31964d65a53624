/* Every exported call, with the numbers that docs/RULES.md names for it. */
#include "groups.h"

#define FROM_10_TO_35 (NUMBER(36) - NUMBER(10))
#define OLD (NUMBER(0) | NUMBER(1) | NUMBER(2) | NUMBER(3) | NUMBER(4) | NUMBER(8) | NUMBER(9) | FROM_10_TO_35 | NUMBER(OTHER_NUMBER))
#define RESPONSE (NUMBER(0) | NUMBER(10) | NUMBER(11) | NUMBER(13) | NUMBER(14) | NUMBER(15))
#define PEAKS (NUMBER(0) | NUMBER(10) | NUMBER(11) | NUMBER(12) | NUMBER(19) | NUMBER(16))
#define SEED ((NUMBER(8) - NUMBER(0)) | NUMBER(10) | NUMBER(11) | NUMBER(12))
#define LIST (NUMBER(0) | NUMBER(10) | NUMBER(11) | NUMBER(12) | NUMBER(19) | NUMBER(16) | NUMBER(15))
#define HEADS (NUMBER(0) | NUMBER(19) | NUMBER(16) | NUMBER(17))
#define TIE (NUMBER(0) | NUMBER(30) | NUMBER(31) | NUMBER(32) | NUMBER(33) | NUMBER(34))
#define GRAYMAP (NUMBER(0) | (NUMBER(26) - NUMBER(20)))
#define COVERAGE (NUMBER(0) | NUMBER(10) | NUMBER(16))
#define DEEP NUMBER(26)

#define CALL(name, deep, numbers, draw, make, written) {"chess_corners_" #name, deep, numbers, draw, make, written}

const struct call calls[] = {
    CALL(old_number, 0, OLD, draw_old_number, make_old_number, whole_or_none),
    CALL(response, 0, RESPONSE, draw_response, make_response, whole_or_none),
    CALL(peaks, 0, PEAKS, draw_peaks, make_peaks, written_peaks),
    CALL(fit_operator, 0, NUMBER(0) | NUMBER(3) | NUMBER(11), draw_fit_operator, make_fit_operator, written_fit_operator),
    CALL(refine, 0, SEED, draw_refine, make_refine, written_refine),
    CALL(refine_with, 0, SEED, draw_refine_with, make_refine_with, written_refine_with),
    CALL(refine_list, 0, LIST, draw_refine_list, make_refine_list, written_refine_list),
    CALL(refine_list_fallback, 0, LIST, draw_fallback, make_fallback, written_fallback),
    CALL(refine_list_fallback_with, 0, LIST, draw_fallback_with, make_fallback_with, written_fallback_with),
    CALL(merge, 0, HEADS | NUMBER(18), draw_merge, make_merge, whole_or_none),
    CALL(merge_heads, 0, HEADS, draw_merge_heads, make_merge_heads, whole_or_none),
    CALL(tie, 0, TIE, draw_tie, make_tie, written_tie),
    CALL(graymap, 0, GRAYMAP, draw_graymap, make_graymap, written_graymap),
    CALL(salvage, 0, COVERAGE | NUMBER(15), draw_salvage, make_salvage, written_salvage),
    CALL(coverage, 0, COVERAGE, draw_coverage, make_coverage, whole_or_none),
    CALL(coverage_add, 0, COVERAGE, draw_coverage_add, make_coverage_add, whole_or_none),
    CALL(coverage_replace, 0, COVERAGE | NUMBER(35), draw_coverage_replace, make_coverage_replace, whole_or_none),
    CALL(coverage_drop, 0, COVERAGE | NUMBER(35), draw_coverage_drop, make_coverage_drop, whole_or_none),
    CALL(gradient, 0, NUMBER(0) | NUMBER(10) | NUMBER(13) | NUMBER(15), draw_gradient, make_gradient, whole_or_none),
    CALL(response_u16, 1, RESPONSE | DEEP, draw_response, make_response_u16, whole_or_none),
    CALL(refine_u16, 1, SEED | DEEP, draw_refine, make_refine_u16, written_refine),
    CALL(refine_with_u16, 1, SEED | DEEP, draw_refine_with, make_refine_with_u16, written_refine_with),
    CALL(refine_list_u16, 1, LIST | DEEP, draw_refine_list, make_refine_list_u16, written_refine_list),
    CALL(refine_list_fallback_u16, 1, LIST | DEEP, draw_fallback, make_fallback_u16, written_fallback),
    CALL(refine_list_fallback_with_u16, 1, LIST | DEEP, draw_fallback_with, make_fallback_with_u16, written_fallback_with),
    CALL(graymap_u16, 1, GRAYMAP | NUMBER(27), draw_graymap_deep, make_graymap_u16, written_graymap_deep),
};
const size_t calls_count = sizeof calls / sizeof calls[0];
