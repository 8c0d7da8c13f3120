/* A torrent of six pieces downloaded from three peers, with the power failing once: the story of examples/README.md, over the inline
 * helpers. It prints each call and its answer. A maker's program has sockets, hashing and files where this one only says what came. */
#include <stdlib.h>
#include <string.h>

#include "piece_picker_inline.h"
#include "show.h"

enum { PIECES = 6, WANTED = 3, PEERS = 3, SAVING_TURN = 4, LAST_TURN_BEFORE = 6, NO_TURN = 40 };
static const int64_t TOTAL_SIZE = 370000;
static const int32_t PIECE_SIZE = 65536;

struct peer {
    uint64_t name;
    uint8_t bitfield; /* the high bit is piece 0 */
    uint16_t options; /* of its picks and marks */
    bool is_seed;
};

static const struct peer peers[PEERS] = {
    {1, 0xe0, PP_OPTION_RAREST_FIRST | PP_OPTION_PIECE_EXTENT_AFFINITY, false},
    {2, 0x3c, PP_OPTION_RAREST_FIRST | PP_OPTION_REVERSE, false},
    {3, 0xfc, PP_OPTION_NONE, true},
};

/* What the program has: a picker in memory of its own, what it draws from, and the blocks that were asked for last. */
struct station {
    pp_picker picker;
    void *memory;
    uint64_t drawing; /* calls that may draw, so far; the seed of the last one's draws */
    uint32_t draws[PP_MIN_DRAWS];
    uint64_t out[PP_MAX_OUTPUT];
    size_t num_out;
};

/* What is kept for a day when the power fails. */
struct saved {
    uint8_t *image;
    size_t image_len;
    uint64_t drawing;
    uint64_t out[PP_MAX_OUTPUT];
    size_t num_out;
};

/* ---- what must not happen in this story */

static _Noreturn void stop(const char *why) {
    fprintf(stderr, "download: %s\n", why);
    exit(1);
}

static void demand(uint32_t refusal) {
    if (refusal != PP_DONE)
        stop(pp_refusal_text(refusal));
}

static void *memory(size_t bytes) {
    void *there = calloc(1, bytes);
    if (!there)
        stop("no memory");
    return there;
}

/* ---- a call's line up to its answer */

/* Words to draw from, made anew for each call that may draw; the line ends with which they are. */
static const uint32_t *new_draws(struct station *s) {
    s->drawing++;
    pp_fill_draws(s->draws, PP_MIN_DRAWS, s->drawing);
    printf(" draws=%d~%" PRIu64 " -> ", PP_MIN_DRAWS, s->drawing);
    return s->draws;
}

static bool has_piece(const struct peer *peer, int32_t piece) {
    return (peer->bitfield >> (7 - piece) & 1) != 0;
}

/* ---- peers come and go */

static void join(struct station *s, const struct peer *peer) {
    printf("# peer %" PRIu64 " joins\n", peer->name);
    if (peer->is_seed) {
        printf("inc_refcount_all -> ");
        show_change(pp_picker_inc_refcount_all(&s->picker));
        return;
    }
    for (int32_t piece = 0; piece < PIECES; piece++) {
        if (!has_piece(peer, piece))
            continue;
        printf("inc_refcount %" PRId32, piece);
        const uint32_t *draws = new_draws(s);
        show_drawing(pp_picker_inc_refcount(&s->picker, draws, PP_MIN_DRAWS, piece));
    }
}

static void take_peer(struct station *s, int32_t piece) {
    printf("dec_refcount %" PRId32, piece);
    const uint32_t *draws = new_draws(s);
    show_drawing(pp_picker_dec_refcount(&s->picker, draws, PP_MIN_DRAWS, piece));
}

static void leave(struct station *s, const struct peer *peer) {
    printf("# peer %" PRIu64 " leaves\n", peer->name);
    if (peer->is_seed) {
        printf("dec_refcount_all -> ");
        show_change(pp_picker_dec_refcount_all(&s->picker));
        return;
    }
    for (int32_t piece = 0; piece < PIECES; piece++)
        if (has_piece(peer, piece))
            take_peer(s, piece);
}

/* ---- a turn: a peer is asked for blocks, and they arrive */

static void pick(struct station *s, const struct peer *peer) {
    printf("pick_pieces %u %d 0 %d %" PRIu64 " %d %02x -", (unsigned)peer->options, WANTED, PEERS, peer->name, PIECES, peer->bitfield);
    pp_pick_lent lent = {.bitfield = &peer->bitfield, .bitfield_len = 1, .draws = new_draws(s), .draws_len = PP_MIN_DRAWS};
    pp_pick_request request = {
        .num_blocks = WANTED,
        .num_peers = PEERS,
        .options = peer->options,
        .peer = peer->name,
        .has_peer = true,
        .bits = PIECES,
    };
    pp_picked picked = pp_picker_pick_pieces(&s->picker, lent, s->out, PP_MAX_OUTPUT, request);
    show_picked(picked, s->out);
    demand(picked.refusal);
    s->num_out = picked.end;
}

static void ask(struct station *s, int turn, const struct peer *peer) {
    printf("# turn %d: peer %" PRIu64 " is asked\n", turn, peer->name);
    pick(s, peer);
    for (size_t k = 0; k < s->num_out; k++) {
        pp_piece_block b = pp_picked_block(s->out[k]);
        printf("mark_as_downloading %" PRId32 " %" PRId32 " %" PRIu64 " %u", b.piece, b.block, peer->name, (unsigned)peer->options);
        const uint32_t *draws = new_draws(s);
        show_drawing(pp_picker_mark_as_downloading(
            &s->picker, draws, PP_MIN_DRAWS, b.piece, b.block, true, peer->name, peer->options));
    }
}

typedef pp_change block_change(pp_picker *p, PP_DRAWS, int32_t piece, int32_t block, bool has_peer, uint64_t peer);

static void change_block(struct station *s, const char *name, block_change *change, pp_piece_block b, uint64_t peer) {
    printf("%s %" PRId32 " %" PRId32 " %" PRIu64, name, b.piece, b.block, peer);
    const uint32_t *draws = new_draws(s);
    show_drawing(change(&s->picker, draws, PP_MIN_DRAWS, b.piece, b.block, true, peer));
}

/* A block came and is written; where it was the piece's last, the piece is hashed and found right. */
static void receive(struct station *s, pp_piece_block b, uint64_t peer) {
    change_block(s, "mark_as_writing", pp_picker_mark_as_writing, b, peer);
    change_block(s, "mark_as_finished", pp_picker_mark_as_finished, b, peer);
    printf("is_piece_finished %" PRId32 " -> ", b.piece);
    pp_answer finished = pp_picker_is_piece_finished(&s->picker, b.piece);
    show_answer(finished);
    if (finished.value == 0)
        return;
    printf("piece_passed %" PRId32 " -> ", b.piece);
    show_change(pp_picker_piece_passed(&s->picker, b.piece));
}

/* Answers whether the download is finished. Peer 2 fails with the first block of each turn. */
static bool arrive(struct station *s, int turn, const struct peer *peer) {
    printf("# turn %d: blocks arrive\n", turn);
    for (size_t k = 0; k < s->num_out; k++) {
        pp_piece_block b = pp_picked_block(s->out[k]);
        if (peer->name == 2 && k == 0)
            change_block(s, "abort_download", pp_picker_abort_download, b, peer->name);
        else
            receive(s, b, peer->name);
    }
    printf("is_finished -> ");
    pp_answer finished = pp_picker_is_finished(&s->picker);
    show_answer(finished);
    return finished.value == 1;
}

static const struct peer *peer_of(int turn) {
    return &peers[(turn - 1) % PEERS];
}

/* ---- lists */

static void show_availability(const struct station *s) {
    uint16_t out[PIECES];
    printf("get_availability_vec -> ");
    pp_answer r = pp_picker_get_availability_vec(&s->picker, out, PIECES);
    demand(r.refusal);
    show_cells(out, r.value);
}

static void show_queue(const struct station *s) {
    uint64_t out[PIECES * PP_DOWNLOAD_QUEUE_NUMBERS];
    printf("get_download_queue -> ");
    pp_answer r = pp_picker_get_download_queue(&s->picker, out, PIECES * PP_DOWNLOAD_QUEUE_NUMBERS);
    demand(r.refusal);
    show_words(out, r.value * PP_DOWNLOAD_QUEUE_NUMBERS);
}

static void show_copies(const struct station *s) {
    printf("distributed_copies -> ");
    pp_copies r = pp_picker_distributed_copies(&s->picker);
    demand(r.refusal);
    show_words((uint64_t[]){r.integer, r.fraction}, 2);
}

/* ---- the image */

/* The bytes of an image, in memory that is the caller's to free. */
static uint8_t *take_image(const struct station *s, size_t *len) {
    size_t room = pp_image_needed(TOTAL_SIZE, PIECE_SIZE);
    uint8_t *bytes = memory(room);
    printf("image -> ");
    pp_answer r = pp_picker_take_image(&s->picker, bytes, room);
    demand(r.refusal);
    *len = r.value;
    printf("bytes ");
    show_bytes(bytes, r.value);
    puts("");
    return bytes;
}

static void save(const struct station *s, struct saved *saved) {
    puts("# the image is saved");
    show_queue(s);
    saved->image = take_image(s, &saved->image_len);
    saved->drawing = s->drawing;
    memcpy(saved->out, s->out, sizeof s->out);
    saved->num_out = s->num_out;
}

/* A picker in new memory, from what was saved. */
static void set_back(struct station *s, const struct saved *saved) {
    pp_memory need = pp_memory_needed(TOTAL_SIZE, PIECE_SIZE);
    puts("# the power fails; the image is read into other memory");
    free(s->memory);
    s->memory = memory(pp_picker_bytes(need));
    s->picker = pp_picker_in(s->memory, need);
    puts("zero -> done");
    printf("read ");
    show_bytes(saved->image, saved->image_len);
    printf(" -> ");
    pp_answer r = pp_picker_read_image(&s->picker, saved->image, saved->image_len);
    show_done(r);
    demand(r.refusal);
    s->drawing = saved->drawing;
    memcpy(s->out, saved->out, sizeof s->out);
    s->num_out = saved->num_out;
    show_queue(s);
}

/* ---- the story */

static void start(struct station *s) {
    pp_memory need = pp_memory_needed(TOTAL_SIZE, PIECE_SIZE);
    s->memory = memory(pp_picker_bytes(need));
    s->picker = pp_picker_in(s->memory, need);
    printf("new %" PRId64 " %" PRId32 " -> ", TOTAL_SIZE, PIECE_SIZE);
    pp_answer r = pp_picker_new(&s->picker, TOTAL_SIZE, PIECE_SIZE);
    show_done(r);
    demand(r.refusal);
    for (int k = 0; k < PEERS; k++)
        join(s, &peers[k]);
    show_availability(s);
    show_copies(s);
    printf("set_piece_priority 4 %d", PP_PRIORITY_TOP);
    const uint32_t *draws = new_draws(s);
    show_drawing(pp_picker_set_piece_priority(&s->picker, draws, PP_MIN_DRAWS, 4, PP_PRIORITY_TOP));
}

static void download_until_the_power_fails(struct station *s, struct saved *saved) {
    for (int turn = 1; turn <= LAST_TURN_BEFORE; turn++) {
        ask(s, turn, peer_of(turn));
        if (turn == SAVING_TURN)
            save(s, saved);
        arrive(s, turn, peer_of(turn));
    }
}

static void download_to_the_end(struct station *s) {
    bool finished = arrive(s, SAVING_TURN, peer_of(SAVING_TURN));
    for (int turn = SAVING_TURN + 1; !finished; turn++) {
        if (turn == NO_TURN)
            stop("the download does not end");
        ask(s, turn, peer_of(turn));
        finished = arrive(s, turn, peer_of(turn));
    }
}

static void end(struct station *s) {
    size_t len;
    printf("num_have -> ");
    show_answer(pp_picker_num_have(&s->picker));
    printf("is_seeding -> ");
    show_answer(pp_picker_is_seeding(&s->picker));
    printf("get_download_queue_size -> ");
    show_answer(pp_picker_get_download_queue_size(&s->picker));
    leave(s, &peers[1]);
    leave(s, &peers[2]);
    show_availability(s);
    take_peer(s, 5); /* nobody is left who has it: refused */
    free(take_image(s, &len));
}

int main(void) {
    static struct station s;
    static struct saved saved;
    start(&s);
    download_until_the_power_fails(&s, &saved);
    set_back(&s, &saved);
    download_to_the_end(&s);
    end(&s);
    free(saved.image);
    free(s.memory);
    return 0;
}
