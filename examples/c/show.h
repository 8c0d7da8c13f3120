/* What the example prints behind ` -> `: answers in the words of docs/CALLS.md. */
#ifndef EXAMPLE_SHOW_H
#define EXAMPLE_SHOW_H

#include <inttypes.h>
#include <stdio.h>

#include "piece_picker_inline.h"

static inline bool show_refusal(uint32_t refusal) {
    if (refusal != PP_DONE)
        printf("refused %" PRIu32 "\n", refusal);
    return refusal != PP_DONE;
}

/* new and read answer no number, a question one. */
static inline void show_done(pp_answer r) {
    if (!show_refusal(r.refusal))
        puts("done");
}

static inline void show_answer(pp_answer r) {
    if (!show_refusal(r.refusal))
        printf("answer %" PRIu64 "\n", r.value);
}

static inline void show_value(pp_change r) {
    if (r.kind == PP_KIND_NOTHING)
        printf("done");
    else
        printf("answer %" PRIu64, r.value);
}

/* A change without draws, and one that may draw. */
static inline void show_change(pp_change r) {
    if (show_refusal(r.refusal))
        return;
    show_value(r);
    puts("");
}

static inline void show_drawing(pp_change r) {
    if (show_refusal(r.refusal))
        return;
    show_value(r);
    printf(" draws %" PRIu64 "\n", r.draws);
}

static inline void show_bytes(const uint8_t *bytes, size_t len) {
    for (size_t i = 0; i < len; i++)
        printf("%02x", bytes[i]);
}

static inline void show_cells(const uint16_t *cells, size_t len) {
    printf("answer");
    for (size_t i = 0; i < len; i++)
        printf(" %u", (unsigned)cells[i]);
    puts("");
}

static inline void show_words(const uint64_t *words, size_t len) {
    printf("answer");
    for (size_t i = 0; i < len; i++)
        printf(" %" PRIu64, words[i]);
    puts("");
}

static inline void show_picked(pp_picked r, const uint64_t *out) {
    if (show_refusal(r.refusal))
        return;
    printf("picked %" PRIu32 " loops %" PRIu64 " %" PRIu64 " %" PRIu64, r.flags, r.partial_loops, r.suggest_loops, r.reverse_rare_loops);
    printf(" %" PRIu64 " %" PRIu64 " %" PRIu64 " %" PRIu64, r.rare_loops, r.rand_start_loops, r.rand_loops, r.busy_loops);
    printf(" blocks");
    for (uint64_t k = 0; k < r.end; k++) {
        pp_piece_block block = pp_picked_block(out[k]);
        printf(" %" PRId32 ".%" PRId32, block.piece, block.block);
    }
    printf(" draws %" PRIu64 "\n", r.draws);
}

#endif
