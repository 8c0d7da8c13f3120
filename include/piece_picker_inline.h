/* The calls of piece_picker.h with the three buffers in one struct: pp_picker_X(&picker, ..) is pp_X with natural arguments. Besides: one
 * block of memory cut into the three buffers, a picked block taken apart, words to draw from, a refusal's text.
 *
 * The struct owns nothing: its buffers are the caller's, live as long as it is used, and hold the picker. A null pointer is taken for
 * a read-only slice of length 0 (draws, bitfield, suggestions, an image's bytes). */
#ifndef PIECE_PICKER_INLINE_H
#define PIECE_PICKER_INLINE_H

#include "piece_picker.h"

typedef struct {
    uint64_t *words;
    size_t words_len;
    uint16_t *cells;
    size_t cells_len;
    pp_record *partials;
    size_t partials_len;
} pp_picker;

#define PP_LENT(p) (p)->words, (p)->words_len, (p)->cells, (p)->cells_len, (p)->partials, (p)->partials_len

/* ---- memory */

/* Bytes of one block of memory for all three buffers. Never 0, so that memory for a geometry that is not valid has an address, too. */
static inline size_t pp_picker_bytes(pp_memory need) {
    return need.words * sizeof(uint64_t) + need.partials * sizeof(pp_record) + need.cells * sizeof(uint16_t) + sizeof(uint64_t);
}

/* The buffers in one block of at least pp_picker_bytes(need) bytes, aligned to 8 as malloc's are. No picker stands in them yet:
 * pp_picker_new or pp_picker_read_image puts one there. */
static inline pp_picker pp_picker_in(void *memory, pp_memory need) {
    unsigned char *bytes = (unsigned char *)memory;
    pp_picker p;
    p.words = (uint64_t *)memory;
    p.words_len = need.words;
    bytes += need.words * sizeof(uint64_t);
    p.partials = (pp_record *)(void *)bytes;
    p.partials_len = need.partials;
    bytes += need.partials * sizeof(pp_record);
    p.cells = (uint16_t *)(void *)bytes;
    p.cells_len = need.cells;
    return p;
}

/* What is lent where a caller has nothing to lend: an address that is not null and aligned for every element. */
static inline const void *pp_lent(const void *pointer) {
    static const uint64_t nothing = 0;
    return pointer ? pointer : &nothing;
}

/* ---- a picker made, saved and set back */

static inline pp_answer pp_picker_new(pp_picker *p, int64_t total_size, int32_t piece_size) {
    return pp_new(PP_LENT(p), total_size, piece_size);
}

static inline pp_answer pp_picker_take_image(const pp_picker *p, uint8_t *bytes, size_t bytes_len) {
    return pp_take_image(PP_LENT(p), bytes, bytes_len);
}

static inline pp_answer pp_picker_read_image(pp_picker *p, const uint8_t *bytes, size_t bytes_len) {
    return pp_read_image(PP_LENT(p), (const uint8_t *)pp_lent(bytes), bytes_len);
}

/* ---- changes */

#define PP_CHANGE_BY_DRAWS(name) \
    static inline pp_change pp_picker_##name(pp_picker *p, PP_DRAWS, int32_t piece) { \
        return pp_##name(PP_LENT(p), (const uint32_t *)pp_lent(draws), draws_len, piece); \
    }
PP_CHANGE_BY_DRAWS(inc_refcount)
PP_CHANGE_BY_DRAWS(dec_refcount)
#undef PP_CHANGE_BY_DRAWS

static inline pp_change pp_picker_inc_refcount_all(pp_picker *p) {
    return pp_inc_refcount_all(PP_LENT(p));
}

static inline pp_change pp_picker_dec_refcount_all(pp_picker *p) {
    return pp_dec_refcount_all(PP_LENT(p));
}

static inline pp_change pp_picker_set_piece_priority(pp_picker *p, PP_DRAWS, int32_t piece, uint8_t priority) {
    pp_priority argument;
    argument.piece = piece;
    argument.priority = priority;
    return pp_set_piece_priority(PP_LENT(p), (const uint32_t *)pp_lent(draws), draws_len, argument);
}

static inline pp_change pp_picker_mark_as_downloading(
    pp_picker *p, PP_DRAWS, int32_t piece, int32_t block, bool has_peer, uint64_t peer, uint16_t options) {
    pp_request argument;
    argument.piece = piece;
    argument.block = block;
    argument.peer = peer;
    argument.has_peer = has_peer;
    argument.options = options;
    return pp_mark_as_downloading(PP_LENT(p), (const uint32_t *)pp_lent(draws), draws_len, argument);
}

/* mark_as_writing, mark_as_finished, mark_as_canceled, abort_download (&picker, draws, draws_len, piece, block, has_peer, peer) */
#define PP_CHANGE_OF_BLOCK(name) \
    static inline pp_change pp_picker_##name(pp_picker *p, PP_DRAWS, int32_t piece, int32_t block, bool has_peer, uint64_t peer) { \
        pp_named_block argument; \
        argument.piece = piece; \
        argument.block = block; \
        argument.peer = peer; \
        argument.has_peer = has_peer; \
        return pp_##name(PP_LENT(p), (const uint32_t *)pp_lent(draws), draws_len, argument); \
    }
PP_CHANGE_OF_BLOCK(mark_as_writing)
PP_CHANGE_OF_BLOCK(mark_as_finished)
PP_CHANGE_OF_BLOCK(mark_as_canceled)
PP_CHANGE_OF_BLOCK(abort_download)
#undef PP_CHANGE_OF_BLOCK

static inline pp_change pp_picker_lock_piece(pp_picker *p, int32_t piece) {
    return pp_lock_piece(PP_LENT(p), piece);
}

static inline pp_change pp_picker_piece_passed(pp_picker *p, int32_t piece) {
    return pp_piece_passed(PP_LENT(p), piece);
}

/* ---- the pick */

/* What a pick is lent to read. */
typedef struct {
    const uint8_t *bitfield;
    size_t bitfield_len;
    const int32_t *suggestions;
    size_t suggestions_len;
    const uint32_t *draws;
    size_t draws_len;
} pp_pick_lent;

/* Appends to out from request.end on; out_len counts the places taken, too. */
static inline pp_picked pp_picker_pick_pieces(pp_picker *p, pp_pick_lent lent, uint64_t *out, size_t out_len, pp_pick_request request) {
    return pp_pick_pieces(PP_LENT(p), (const uint8_t *)pp_lent(lent.bitfield), lent.bitfield_len,
        (const int32_t *)pp_lent(lent.suggestions), lent.suggestions_len, out, out_len, (const uint32_t *)pp_lent(lent.draws),
        lent.draws_len, request);
}

/* A word of a pick's output taken apart. */
static inline pp_piece_block pp_picked_block(uint64_t word) {
    pp_piece_block block;
    block.piece = (int32_t)(word / 65536);
    block.block = (int32_t)(word % 65536);
    return block;
}

/* ---- questions */

#define PP_ASK(type, name) \
    static inline type pp_picker_##name(const pp_picker *p) { \
        return pp_##name(PP_LENT(p)); \
    }
PP_ASK(pp_answer, num_pieces)
PP_ASK(pp_answer, blocks_per_piece)
PP_ASK(pp_answer, block_size)
PP_ASK(pp_answer, total_size)
PP_ASK(pp_answer, full_piece_size)
PP_ASK(pp_answer, num_seeds)
PP_ASK(pp_answer, cursor)
PP_ASK(pp_answer, reverse_cursor)
PP_ASK(pp_answer, dirty)
PP_ASK(pp_answer, get_download_queue_size)
PP_ASK(pp_answer, num_pad_bytes)
PP_ASK(pp_answer, num_have)
PP_ASK(pp_answer, num_filtered)
PP_ASK(pp_answer, num_have_filtered)
PP_ASK(pp_answer, is_finished)
PP_ASK(pp_answer, is_seeding)
PP_ASK(pp_answer, num_want_left)
PP_ASK(pp_copies, distributed_copies)
PP_ASK(pp_count, want)
PP_ASK(pp_count, have_want)
PP_ASK(pp_count, have)
PP_ASK(pp_count, all_pieces)
PP_ASK(pp_sizes, get_download_queue_sizes)
#undef PP_ASK

/* at a place, or of a piece */
#define PP_ASK_AT(type, name) \
    static inline type pp_picker_##name(const pp_picker *p, int32_t place) { \
        return pp_##name(PP_LENT(p), place); \
    }
PP_ASK_AT(pp_answer, partial_at)
PP_ASK_AT(pp_answer, recent_extent)
PP_ASK_AT(pp_answer, list_place)
PP_ASK_AT(pp_answer, pad_bytes_in_piece)
PP_ASK_AT(pp_answer, peer_count)
PP_ASK_AT(pp_answer, piece_priority)
PP_ASK_AT(pp_answer, download_state)
PP_ASK_AT(pp_answer, is_piece_flushed)
PP_ASK_AT(pp_answer, is_downloading)
PP_ASK_AT(pp_answer, piece_size)
PP_ASK_AT(pp_answer, blocks_in_piece)
PP_ASK_AT(pp_answer, payload_blocks_in_piece)
PP_ASK_AT(pp_answer, get_availability)
PP_ASK_AT(pp_answer, is_hashing)
PP_ASK_AT(pp_answer, have_piece)
PP_ASK_AT(pp_answer, is_piece_finished)
PP_ASK_AT(pp_answer, passed_hash_check)
PP_ASK_AT(pp_answer, locked)
PP_ASK_AT(pp_answer, hashing)
PP_ASK_AT(pp_stats, piece_stats)
PP_ASK_AT(pp_info, piece_info)
#undef PP_ASK_AT

#define PP_ASK_BLOCK(name) \
    static inline pp_answer pp_picker_##name(const pp_picker *p, int32_t piece, int32_t block) { \
        pp_piece_block argument; \
        argument.piece = piece; \
        argument.block = block; \
        return pp_##name(PP_LENT(p), argument); \
    }
PP_ASK_BLOCK(num_peers_block)
PP_ASK_BLOCK(is_requested)
PP_ASK_BLOCK(is_downloaded)
PP_ASK_BLOCK(is_finished_block)
PP_ASK_BLOCK(block_state)
PP_ASK_BLOCK(block_num_peers)
PP_ASK_BLOCK(get_downloader)
PP_ASK_BLOCK(block_peer)
#undef PP_ASK_BLOCK

static inline pp_answer pp_picker_get_availability_vec(const pp_picker *p, uint16_t *out, size_t out_len) {
    return pp_get_availability_vec(PP_LENT(p), out, out_len);
}

static inline pp_answer pp_picker_piece_priorities(const pp_picker *p, uint16_t *out, size_t out_len) {
    return pp_piece_priorities(PP_LENT(p), out, out_len);
}

static inline pp_answer pp_picker_get_download_queue(const pp_picker *p, uint64_t *out, size_t out_len) {
    return pp_get_download_queue(PP_LENT(p), out, out_len);
}

static inline pp_answer pp_picker_get_downloaders(const pp_picker *p, int32_t piece, uint64_t *out, size_t out_len) {
    return pp_get_downloaders(PP_LENT(p), out, out_len, piece);
}

static inline pp_answer pp_picker_blocks_for_piece(const pp_picker *p, int32_t piece, uint64_t *out, size_t out_len) {
    return pp_blocks_for_piece(PP_LENT(p), out, out_len, piece);
}

/* ---- draws, and a refusal's text */

/* Word number i of those made from a seed: the formula of docs/CALLS.md. Good enough to pick by, and no secret. */
static inline uint32_t pp_draw(uint64_t seed, uint64_t i) {
    uint64_t z = seed + (i + 1) * 0x9E3779B97F4A7C15u;
    z = (z ^ z >> 30) * 0xBF58476D1CE4E5B9u;
    z = (z ^ z >> 27) * 0x94D049BB133111EBu;
    return (uint32_t)((z ^ z >> 31) >> 32);
}

static inline void pp_fill_draws(uint32_t *draws, size_t draws_len, uint64_t seed) {
    for (size_t i = 0; i < draws_len; i++)
        draws[i] = pp_draw(seed, i);
}

/* The words of the table of refusals. */
static inline const char *pp_refusal_text(uint32_t refusal) {
    static const char *const texts[] = {
        "not refused",
        "total under 1, piece size outside 1 to 4,194,304, or over 4,096 pieces",
        "lent memory shorter than the geometry or the image needs",
        "lent memory isn't a well-formed picker",
        "fewer than 4,352 draws lent to a call that may draw",
        "piece, block, list place or priority out of range",
        "a piece's count plus seeds would pass 1,000, or a block's requesters would",
        "a peer or seed is taken away where the seeds and a piece's count that it would lower are 0",
        "a had piece is marked downloading",
        "a Requested block is finished without Writing",
        "a 513th partial would be opened",
        ("blocks wanted outside 1 to 2,048, run outside 0 to 2,048, peers outside 0 to 1,000, over 256 suggestions, RAREST_FIRST with "
         "SEQUENTIAL, or a bitfield whose bits differ from the piece count or whose bytes differ from bits / 8 rounded up"),
        "fewer than blocks wanted plus run plus 255 free output places",
        "bytes aren't a well-formed image",
    };
    return refusal < sizeof texts / sizeof texts[0] ? texts[refusal] : "no refusal of the table";
}

#endif
