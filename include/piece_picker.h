/* The piece picker for C and C++: every call of the archive libpiece_picker.a. piece_picker_inline.h has the same calls with the three
 * buffers held in one struct.
 *
 * Memory. A picker stands in three buffers that the caller owns and lends to each call: words, cells and partials. pp_memory_needed says
 * how long each has to be, in elements. The library allocates nothing, keeps no pointer after a call has returned and has no state of its
 * own, so a picker can be copied or moved to other buffers between calls; buffers may be longer than needed, and what lies beyond is
 * not touched. Their contents are the library's: they are changed by calls alone, and saved as an image (pp_take_image), not as they stand.
 *
 * Pointers. A slice is a pointer and a length in elements. Every pointer is valid for its length, aligned as its type (words, lists of an
 * answer and output 8 bytes, partials, draws and suggestions 4, cells 2, bytes 1) and not null, where the length is 0, too. No slice that
 * a call may write overlaps another slice of the same call. That is all a call asks for: numbers and contents may be any, and what cannot
 * be done is refused.
 *
 * Refusals. Each answer has `refusal`: 0 where the call did its work, else one of the thirteen numbers below; `place` is 0 but for refusal
 * 13. A refused call has changed none of the buffers lent to it. Checks run in the order of the numbers, but pp_read_image judges 13
 * before 2.
 *
 * Threads. Calls on different pickers may run at once. So may calls on the same one that take it const. A call that takes it without
 * const needs it for itself; keeping others out is the caller's part.
 *
 * Draws. A call that may draw is lent at least PP_MIN_DRAWS random words of 32 bits and uses them from the first on; how many it used is in
 * its answer. A draw with limit n is the next word modulo (n + 1). Where they come from is the caller's: the same picker with the same
 * arguments and draws answers alike and becomes the same, so a caller that stores its seed with an image can repeat what followed.
 *
 * Images. pp_take_image writes the whole state as bytes, pp_read_image makes a picker of them, in the same or in other memory. Two pickers
 * have equal images exactly when they answer alike in every later list of calls. pp_image_needed gives a length that is enough for any
 * image of a geometry; the answer says how many bytes there are. Any bytes may be read: those that are no image are refused with 13.
 *
 * Stack. What a call works on besides stands on the stack: PP_STACK_BYTES is enough for any call and all that it calls. The pick takes the
 * most, some 89 KiB; any other call takes less than 32 KiB. examples/stack.py reads that from the archive's machine code.
 *
 * x86-64 with the System V calling convention. */
#ifndef PIECE_PICKER_H
#define PIECE_PICKER_H

#include <assert.h>
#include <stdbool.h>
#include <stddef.h>
#include <stdint.h>

#ifdef __cplusplus
extern "C" {
#endif

/* ---- limits */

enum {
    PP_MAX_PIECES = 4096,
    PP_MAX_PIECE_SIZE = 4194304,
    PP_BLOCK_SIZE = 16384, /* bytes of a block, but for the last of a piece; a shorter piece size is one block */
    PP_MAX_BLOCKS_PER_PIECE = 256,
    PP_MAX_PARTIALS = 512,
    PP_MAX_PEERS = 1000, /* of a piece, seeds included, and of a block */
    PP_MAX_EXTENTS = 5,
    PP_MIN_DRAWS = 4352,
    PP_MAX_NUM_BLOCKS = 2048,
    PP_MAX_PREFER_CONTIGUOUS_BLOCKS = 2048,
    PP_MAX_SUGGESTIONS = 256,
    PP_OUTPUT_BESIDE = 255, /* a pick needs num_blocks + prefer_contiguous_blocks + this many free places */
    PP_MAX_OUTPUT = 4351,   /* free places that are enough for any pick */
    PP_STACK_BYTES = 131072
};

/* ---- the thirteen refusals, 0 being none */

enum {
    PP_DONE = 0,
    PP_REFUSAL_GEOMETRY = 1,           /* new: total under 1, piece size outside 1 to 4,194,304, or over 4,096 pieces */
    PP_REFUSAL_SHORT_MEMORY = 2,       /* lent memory shorter than the geometry or the image needs */
    PP_REFUSAL_ILL_FORMED_MEMORY = 3,  /* a call on a picker: lent memory isn't a well-formed one */
    PP_REFUSAL_FEW_DRAWS = 4,          /* fewer than 4,352 draws lent to a call that may draw */
    PP_REFUSAL_OUT_OF_RANGE = 5,       /* piece, block, list place or priority out of range */
    PP_REFUSAL_TOO_MANY_PEERS = 6,     /* a piece's count plus seeds would pass 1,000, or a block's requesters would */
    PP_REFUSAL_NO_PEER_TO_TAKE = 7,    /* a peer or seed is taken away where the seeds and a piece's count that it would lower are 0 */
    PP_REFUSAL_HAVE_PIECE = 8,         /* a had piece is marked downloading */
    PP_REFUSAL_NOT_WRITING = 9,        /* a Requested block is finished without Writing */
    PP_REFUSAL_TOO_MANY_PARTIALS = 10, /* a 513th partial would be opened */
    PP_REFUSAL_PICK_ARGUMENTS = 11,    /* pick: num_blocks outside 1 to 2,048, prefer_contiguous_blocks outside 0 to 2,048, num_peers
                                          outside 0 to 1,000, over 256 suggestions, RAREST_FIRST with SEQUENTIAL, or a bitfield whose bits
                                          differ from the piece count or whose bytes differ from bits / 8 rounded up */
    PP_REFUSAL_SHORT_OUTPUT = 12,      /* pick: fewer than num_blocks + prefer_contiguous_blocks + 255 free output places */
    PP_REFUSAL_ILL_FORMED_IMAGE = 13   /* bytes aren't a well-formed image; `place` is where the first record at fault starts */
};

/* ---- numbers of arguments and answers, under the names of the Rust */

/* PickerOptions: bits of `options`; other bits mean nothing */
enum {
    PP_OPTION_NONE = 0,
    PP_OPTION_RAREST_FIRST = 1,
    PP_OPTION_REVERSE = 2,
    PP_OPTION_ON_PAROLE = 4,
    PP_OPTION_PRIORITIZE_PARTIALS = 8,
    PP_OPTION_SEQUENTIAL = 16,
    PP_OPTION_TIME_CRITICAL = 32,
    PP_OPTION_ALIGN_EXPANDED_PIECES = 64,
    PP_OPTION_PIECE_EXTENT_AFFINITY = 128
};

/* PickerFlags: bits of a pick's `flags`, which of its steps were taken */
enum {
    PP_FLAG_PARTIAL_RATIO = 1,
    PP_FLAG_PRIORITIZE_PARTIALS = 2,
    PP_FLAG_RAREST_FIRST_PARTIALS = 4,
    PP_FLAG_RAREST_FIRST = 8,
    PP_FLAG_REVERSE_RAREST_FIRST = 16,
    PP_FLAG_SUGGESTED_PIECES = 32,
    PP_FLAG_PRIO_SEQUENTIAL_PIECES = 64,
    PP_FLAG_SEQUENTIAL_PIECES = 128,
    PP_FLAG_REVERSE_PIECES = 256,
    PP_FLAG_TIME_CRITICAL = 512,
    PP_FLAG_RANDOM_PIECES = 1024,
    PP_FLAG_PREFER_CONTIGUOUS = 2048,
    PP_FLAG_REVERSE_SEQUENTIAL = 4096,
    PP_FLAG_BACKUP1 = 8192,
    PP_FLAG_BACKUP2 = 16384,
    PP_FLAG_END_GAME = 32768,
    PP_FLAG_EXTENT_AFFINITY = 65536
};

/* BlockState: what block_state and blocks_for_piece answer */
enum {
    PP_BLOCK_NONE = 0,      /* free to request */
    PP_BLOCK_REQUESTED = 1, /* requested from at least one peer */
    PP_BLOCK_WRITING = 2,   /* received, being written */
    PP_BLOCK_FINISHED = 3   /* written */
};

/* DownloadQueue: what download_state answers */
enum {
    PP_QUEUE_DOWNLOADING = 0, /* some blocks are outstanding */
    PP_QUEUE_FULL = 1,        /* all blocks are requested or received, some only requested */
    PP_QUEUE_FINISHED = 2,    /* all blocks are received */
    PP_QUEUE_ZERO_PRIO = 3,   /* a partial piece whose priority is 0 */
    PP_QUEUE_OPEN = 4,        /* in no queue */
    PP_QUEUE_DOWNLOADING_REVERSE = 5,
    PP_QUEUE_FULL_REVERSE = 6
};

/* DownloadPriority: 0 to 7 */
enum { PP_PRIORITY_DONT_DOWNLOAD = 0, PP_PRIORITY_LOW = 1, PP_PRIORITY_DEFAULT = 4, PP_PRIORITY_TOP = 7 };

/* `kind` of an answer */
enum {
    PP_KIND_NOTHING = 0, /* a call that answers no number, or nothing is there: no partial, no such place */
    PP_KIND_NUMBER = 1,  /* `value`; a call that the Rust answers true or false gives 1 or 0 */
    PP_KIND_STALE = 2,   /* list_place while the list is stale: the next pick that needs it makes it anew */
    PP_KIND_NO_PEER = 3  /* a block without a peer */
};

/* ---- what is lent */

/* A record of a partial. Contents are the library's. */
typedef struct {
    uint32_t index;
    uint32_t info_idx;
    uint32_t flags;
} pp_record;

/* Elements that each buffer needs; 0 each where the geometry is not valid. */
typedef struct {
    uint64_t words;
    uint64_t cells;
    uint64_t partials;
} pp_memory;

/* The picker lent to be changed, and to be read only. */
#define PP_BUFFERS uint64_t *words, size_t words_len, uint16_t *cells, size_t cells_len, pp_record *partials, size_t partials_len
#define PP_CONST_BUFFERS \
    const uint64_t *words, size_t words_len, const uint16_t *cells, size_t cells_len, const pp_record *partials, size_t partials_len
#define PP_DRAWS const uint32_t *draws, size_t draws_len

/* ---- arguments: pieces and blocks count from 0; any number is taken, one out of range is refused */

typedef struct {
    int32_t piece;
    int32_t block;
} pp_piece_block;

typedef struct {
    int32_t piece;
    uint8_t priority;
} pp_priority;

/* A block and a peer. has_peer 0: no peer, and `peer` means nothing; any other number: the peer named by `peer`. */
typedef struct {
    int32_t piece;
    int32_t block;
    uint64_t peer;
    uint32_t has_peer;
} pp_named_block;

typedef struct {
    int32_t piece;
    int32_t block;
    uint64_t peer;
    uint32_t has_peer;
    uint16_t options; /* PP_OPTION_REVERSE and PP_OPTION_PIECE_EXTENT_AFFINITY count */
} pp_request;

typedef struct {
    int32_t num_blocks;               /* blocks wanted */
    int32_t prefer_contiguous_blocks; /* blocks wanted in a run, 0 for none */
    int32_t num_peers;                /* peers of the torrent */
    uint16_t options;
    uint64_t peer; /* the peer that the blocks are for */
    uint32_t has_peer;
    size_t bits; /* of the bitfield: the number of pieces */
    size_t end;  /* places of the output that are taken; the pick appends from there */
} pp_pick_request;

/* ---- answers */

typedef struct {
    uint32_t refusal;
    uint32_t kind;
    uint64_t place;
    uint64_t value;
} pp_answer;

typedef struct {
    uint32_t refusal;
    uint32_t kind; /* PP_KIND_NOTHING, or PP_KIND_NUMBER with `value` 1 (true) or 0 (false) */
    uint64_t place;
    uint64_t value;
    uint64_t draws; /* words used */
} pp_change;

typedef struct {
    uint32_t refusal;
    uint64_t place;
    uint64_t integer;
    uint64_t fraction; /* thousandths */
} pp_copies;

/* PieceCount of the Rust. */
typedef struct {
    uint32_t refusal;
    uint64_t place;
    uint64_t num_pieces;
    uint64_t pad_bytes; /* of these pieces */
    bool last_piece;    /* whether the torrent's last one is among them */
} pp_count;

typedef struct {
    uint32_t refusal;
    uint64_t place;
    uint64_t downloading;
    uint64_t full;
    uint64_t finished;
    uint64_t zero_prio;
} pp_sizes;

typedef struct {
    uint32_t refusal;
    uint64_t place;
    uint64_t peer_count; /* seeds included */
    bool listed;         /* whether it has a bucket */
    uint16_t priority;   /* the bucket, 0 where it has none */
    bool flushed;
    bool downloading;
} pp_stats;

typedef struct {
    uint32_t refusal;
    uint64_t place;
    uint64_t index;
    uint16_t finished; /* blocks in each state */
    bool passed_hash_check;
    uint16_t writing;
    bool locked;
    uint16_t requested;
    bool hashing;
} pp_info;

/* `end`: where the output now ends. Each block picked is one word, piece * 65,536 + block. The seven counters are the steps of the pick's
 * loops, as PickerStats of the Rust counts them. */
typedef struct {
    uint32_t refusal;
    uint32_t flags;
    uint64_t place;
    uint64_t end;
    uint64_t draws;
    uint64_t partial_loops;
    uint64_t suggest_loops;
    uint64_t reverse_rare_loops;
    uint64_t rare_loops;
    uint64_t rand_start_loops;
    uint64_t rand_loops;
    uint64_t busy_loops;
} pp_picked;

/* ---- a picker made, saved and set back */

/* What a geometry needs; no call on a picker, so there is nothing to refuse. */
pp_memory pp_memory_needed(int64_t total_size, int32_t piece_size);
/* Bytes that no image of such a picker passes; 0 where the geometry is not valid. */
uint64_t pp_image_needed(int64_t total_size, int32_t piece_size);

/* A new picker, whatever the buffers held before. Refusals 1, 2. */
pp_answer pp_new(PP_BUFFERS, int64_t total_size, int32_t piece_size);
/* The image; `value` is how many bytes were written. Refusals 2 (buffers or bytes too short), 3. */
pp_answer pp_take_image(PP_CONST_BUFFERS, uint8_t *bytes, size_t bytes_len);
/* A picker of an image's bytes, whatever the buffers held before. The bytes are exactly the image, nothing behind it. Refusals 13, 2. */
pp_answer pp_read_image(PP_BUFFERS, const uint8_t *bytes, size_t bytes_len);

/* ---- changes: refusals 2, 3, then those named; 4 where draws are lent */

/* A peer has the piece, has it no longer. 5, 6; 5, 7. */
pp_change pp_inc_refcount(PP_BUFFERS, PP_DRAWS, int32_t piece);
pp_change pp_dec_refcount(PP_BUFFERS, PP_DRAWS, int32_t piece);
/* A peer has all pieces (a seed), is there no longer. 6; 7. */
pp_change pp_inc_refcount_all(PP_BUFFERS);
pp_change pp_dec_refcount_all(PP_BUFFERS);
/* 0 to 7. Answers whether the piece turned wanted or unwanted. 5. */
pp_change pp_set_piece_priority(PP_BUFFERS, PP_DRAWS, pp_priority priority);
/* The block is requested from the peer. Answers false where it is Writing or Finished. 5, 6, 8, 10. */
pp_change pp_mark_as_downloading(PP_BUFFERS, PP_DRAWS, pp_request request);
/* The block came from the peer and is being written. Answers false where it was Writing or Finished, or the piece is had. 5, 10. */
pp_change pp_mark_as_writing(PP_BUFFERS, PP_DRAWS, pp_named_block block);
/* The block is written. 5, 9, 10. */
pp_change pp_mark_as_finished(PP_BUFFERS, PP_DRAWS, pp_named_block block);
/* Writing the block failed: it is free again, its peer the one named. 5. */
pp_change pp_mark_as_canceled(PP_BUFFERS, PP_DRAWS, pp_named_block block);
/* The peer will not bring the block: it is free again with the last one who was asked. 5. */
pp_change pp_abort_download(PP_BUFFERS, PP_DRAWS, pp_named_block block);
/* Hashing or writing the piece failed: until its partial is closed none of its blocks is picked, and it is not passed. 5. */
pp_change pp_lock_piece(PP_BUFFERS, int32_t piece);
/* The piece's hash was right; with all its blocks Finished the piece is had. 5. */
pp_change pp_piece_passed(PP_BUFFERS, int32_t piece);

/* ---- the pick */

/* Appends the blocks to ask a peer for. `bitfield` is the pieces that it has, the high bit of the first byte being piece 0, spare bits
 * anything; `suggestions` are pieces to try first, those out of range passed over. A block can come twice. The picker changes where its
 * list is made anew or an extent is done with. Refusals 2, 3, 4, 11, 12. */
pp_picked pp_pick_pieces(uint64_t *words, size_t words_len, uint16_t *cells, size_t cells_len, const pp_record *partials,
    size_t partials_len, const uint8_t *bitfield, size_t bitfield_len, const int32_t *suggestions, size_t suggestions_len, uint64_t *out,
    size_t out_len, PP_DRAWS, pp_pick_request request);

/* ---- questions: refusals 2, 3, then those named */

/* Of the picker; PP_KIND_NUMBER. Those that start with is_, and dirty, are 0 or 1. */
pp_answer pp_num_pieces(PP_CONST_BUFFERS);
pp_answer pp_blocks_per_piece(PP_CONST_BUFFERS);
pp_answer pp_block_size(PP_CONST_BUFFERS);
pp_answer pp_total_size(PP_CONST_BUFFERS);
pp_answer pp_full_piece_size(PP_CONST_BUFFERS); /* of every piece but the last */
pp_answer pp_num_seeds(PP_CONST_BUFFERS);
pp_answer pp_cursor(PP_CONST_BUFFERS);         /* the first piece that a sequential pick looks at */
pp_answer pp_reverse_cursor(PP_CONST_BUFFERS); /* the one behind the last that it looks at */
pp_answer pp_dirty(PP_CONST_BUFFERS);          /* whether the list is stale */
pp_answer pp_get_download_queue_size(PP_CONST_BUFFERS);
pp_answer pp_num_pad_bytes(PP_CONST_BUFFERS);
pp_answer pp_num_have(PP_CONST_BUFFERS); /* had or passed */
pp_answer pp_num_filtered(PP_CONST_BUFFERS);      /* of priority 0, not had */
pp_answer pp_num_have_filtered(PP_CONST_BUFFERS); /* of priority 0, had */
pp_answer pp_is_finished(PP_CONST_BUFFERS); /* nothing that is wanted is left */
pp_answer pp_is_seeding(PP_CONST_BUFFERS);  /* no piece is left */
pp_answer pp_num_want_left(PP_CONST_BUFFERS);

pp_copies pp_distributed_copies(PP_CONST_BUFFERS); /* copies of the rarest piece, and how many pieces have more */
pp_count pp_want(PP_CONST_BUFFERS);                /* pieces of priority above 0 */
pp_count pp_have_want(PP_CONST_BUFFERS);           /* those that are had */
pp_count pp_have(PP_CONST_BUFFERS);
pp_count pp_all_pieces(PP_CONST_BUFFERS);
pp_sizes pp_get_download_queue_sizes(PP_CONST_BUFFERS); /* partials by queue, plain and reverse together */

/* What stands at a place; PP_KIND_NOTHING past the last. Refusal 5 of list_place alone, past its last place. */
pp_answer pp_partial_at(PP_CONST_BUFFERS, int32_t place);    /* partials by rising piece: the piece */
pp_answer pp_recent_extent(PP_CONST_BUFFERS, int32_t place); /* oldest first */
pp_answer pp_list_place(PP_CONST_BUFFERS, int32_t place);    /* the piece at a place of the bucket list, or PP_KIND_STALE */

/* Of a piece; PP_KIND_NUMBER. Refusal 5. */
pp_answer pp_pad_bytes_in_piece(PP_CONST_BUFFERS, int32_t piece);
pp_answer pp_peer_count(PP_CONST_BUFFERS, int32_t piece); /* without the seeds */
pp_answer pp_piece_priority(PP_CONST_BUFFERS, int32_t piece);
pp_answer pp_download_state(PP_CONST_BUFFERS, int32_t piece); /* PP_QUEUE_.. */
pp_answer pp_is_piece_flushed(PP_CONST_BUFFERS, int32_t piece);
pp_answer pp_is_downloading(PP_CONST_BUFFERS, int32_t piece);
pp_answer pp_piece_size(PP_CONST_BUFFERS, int32_t piece);
pp_answer pp_blocks_in_piece(PP_CONST_BUFFERS, int32_t piece);
pp_answer pp_payload_blocks_in_piece(PP_CONST_BUFFERS, int32_t piece);
pp_answer pp_get_availability(PP_CONST_BUFFERS, int32_t piece); /* seeds included */
pp_answer pp_is_hashing(PP_CONST_BUFFERS, int32_t piece);
pp_answer pp_have_piece(PP_CONST_BUFFERS, int32_t piece);
pp_answer pp_is_piece_finished(PP_CONST_BUFFERS, int32_t piece); /* had, or each block Writing or Finished */

/* Of a piece's partial; PP_KIND_NOTHING where there is none. Refusal 5. */
pp_answer pp_passed_hash_check(PP_CONST_BUFFERS, int32_t piece);
pp_answer pp_locked(PP_CONST_BUFFERS, int32_t piece);
pp_answer pp_hashing(PP_CONST_BUFFERS, int32_t piece);

pp_stats pp_piece_stats(PP_CONST_BUFFERS, int32_t piece);
pp_info pp_piece_info(PP_CONST_BUFFERS, int32_t piece);

/* Of a block; PP_KIND_NUMBER. Refusal 5. */
pp_answer pp_num_peers_block(PP_CONST_BUFFERS, pp_piece_block block);
pp_answer pp_is_requested(PP_CONST_BUFFERS, pp_piece_block block);
pp_answer pp_is_downloaded(PP_CONST_BUFFERS, pp_piece_block block);
pp_answer pp_is_finished_block(PP_CONST_BUFFERS, pp_piece_block block);
/* PP_KIND_NOTHING without a partial. */
pp_answer pp_block_state(PP_CONST_BUFFERS, pp_piece_block block); /* PP_BLOCK_.. */
pp_answer pp_block_num_peers(PP_CONST_BUFFERS, pp_piece_block block);
/* PP_KIND_NUMBER: the peer; PP_KIND_NO_PEER. block_peer: PP_KIND_NOTHING without a partial. get_downloader: no peer of a free block. */
pp_answer pp_get_downloader(PP_CONST_BUFFERS, pp_piece_block block);
pp_answer pp_block_peer(PP_CONST_BUFFERS, pp_piece_block block);

/* ---- lists: `value` records are written from out[0] on, what lies behind them is untouched. Refusal 2 where `out` has no room for as many
 * records as there could be, said beside each: n pieces, b blocks per piece, m the lesser of n and 512. */

/* One number a piece; n. */
pp_answer pp_get_availability_vec(PP_CONST_BUFFERS, uint16_t *out, size_t out_len);
pp_answer pp_piece_priorities(PP_CONST_BUFFERS, uint16_t *out, size_t out_len);
/* Seven a partial, by queue and then by rising piece: index, finished, passed, writing, locked, requested, hashing; 7 * m. */
pp_answer pp_get_download_queue(PP_CONST_BUFFERS, uint64_t *out, size_t out_len);
/* Two a block: has-peer, peer: 1 and the peer, or 0 and 0 for none; 2 * b. Refusal 5. */
pp_answer pp_get_downloaders(PP_CONST_BUFFERS, uint64_t *out, size_t out_len, int32_t piece);
/* Four a block: state, num_peers, has-peer, peer as above; 4 * b. PP_KIND_NOTHING without a partial. Refusal 5. */
pp_answer pp_blocks_for_piece(PP_CONST_BUFFERS, uint64_t *out, size_t out_len, int32_t piece);

enum {
    PP_DOWNLOAD_QUEUE_NUMBERS = 7,
    PP_DOWNLOADERS_NUMBERS = 2,
    PP_BLOCKS_FOR_PIECE_NUMBERS = 4
};

/* ---- the layouts that the archive was built with */

#define PP_AT(type, field, place) static_assert(offsetof(type, field) == (place), "the layout of " #type)
#define PP_OF(type, size) static_assert(sizeof(type) == (size), "the size of " #type)

PP_OF(size_t, 8);
PP_OF(bool, 1);
PP_OF(pp_record, 12);
PP_OF(pp_memory, 24);
PP_OF(pp_piece_block, 8);
PP_OF(pp_priority, 8);
PP_AT(pp_priority, priority, 4);
PP_OF(pp_named_block, 24);
PP_AT(pp_named_block, peer, 8);
PP_AT(pp_named_block, has_peer, 16);
PP_OF(pp_request, 24);
PP_AT(pp_request, peer, 8);
PP_AT(pp_request, has_peer, 16);
PP_AT(pp_request, options, 20);
PP_OF(pp_pick_request, 48);
PP_AT(pp_pick_request, options, 12);
PP_AT(pp_pick_request, peer, 16);
PP_AT(pp_pick_request, has_peer, 24);
PP_AT(pp_pick_request, bits, 32);
PP_AT(pp_pick_request, end, 40);
PP_OF(pp_answer, 24);
PP_AT(pp_answer, kind, 4);
PP_AT(pp_answer, place, 8);
PP_AT(pp_answer, value, 16);
PP_OF(pp_change, 32);
PP_AT(pp_change, kind, 4);
PP_AT(pp_change, place, 8);
PP_AT(pp_change, value, 16);
PP_AT(pp_change, draws, 24);
PP_OF(pp_copies, 32);
PP_AT(pp_copies, place, 8);
PP_AT(pp_copies, integer, 16);
PP_AT(pp_copies, fraction, 24);
PP_OF(pp_count, 40);
PP_AT(pp_count, num_pieces, 16);
PP_AT(pp_count, pad_bytes, 24);
PP_AT(pp_count, last_piece, 32);
PP_OF(pp_sizes, 48);
PP_AT(pp_sizes, downloading, 16);
PP_AT(pp_sizes, zero_prio, 40);
PP_OF(pp_stats, 32);
PP_AT(pp_stats, peer_count, 16);
PP_AT(pp_stats, listed, 24);
PP_AT(pp_stats, priority, 26);
PP_AT(pp_stats, flushed, 28);
PP_AT(pp_stats, downloading, 29);
PP_OF(pp_info, 40);
PP_AT(pp_info, index, 16);
PP_AT(pp_info, finished, 24);
PP_AT(pp_info, passed_hash_check, 26);
PP_AT(pp_info, writing, 28);
PP_AT(pp_info, locked, 30);
PP_AT(pp_info, requested, 32);
PP_AT(pp_info, hashing, 34);
PP_OF(pp_picked, 88);
PP_AT(pp_picked, flags, 4);
PP_AT(pp_picked, place, 8);
PP_AT(pp_picked, end, 16);
PP_AT(pp_picked, draws, 24);
PP_AT(pp_picked, partial_loops, 32);
PP_AT(pp_picked, busy_loops, 80);

#undef PP_AT
#undef PP_OF

#ifdef __cplusplus
}
#endif

#endif
