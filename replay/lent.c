/* What is lent to the linked code. The memory is that of the largest picker and one element more in each buffer. */
#include "lent.h"

#include <string.h>

enum { WORDS = 139280 + 1, CELLS = 409600 + 1, PARTIALS = PP_MAX_PARTIALS + 1, HEAD_BYTES = 24 };

static uint64_t words[WORDS];
static uint16_t cells[CELLS];
static pp_record partials[PARTIALS];
static bool standing;

void zero_memory(void) {
    memset(words, 0, sizeof words);
    memset(cells, 0, sizeof cells);
    memset(partials, 0, sizeof partials);
}

void say_standing(bool stands) {
    standing = stands;
}

/* ---- numbers */

static size_t moved;

size_t numbers_moved(void) {
    return moved;
}

/* A script's numbers have 64 bits; those of the exports have 32, a priority 8. One that does not fit becomes the nearest that does. It is
 * out of range before and after: above every piece, block, place, piece size, count and priority that there can be, or below 0; so the
 * refusal, or the suggestion passed over, is the same. */
int32_t as_i32(int64_t number) {
    int64_t nearest = number < INT32_MIN ? INT32_MIN : number > INT32_MAX ? INT32_MAX : number;
    moved += nearest != number;
    return (int32_t)nearest;
}

/* A priority below 0 has no nearest number out of range but the largest. */
uint8_t as_u8(int64_t number) {
    bool fits = number >= 0 && number <= UINT8_MAX;
    moved += !fits;
    return fits ? (uint8_t)number : UINT8_MAX;
}

size_t lent_length(uint64_t asked, size_t room) {
    return asked < room ? (size_t)asked : room;
}

/* ---- the picker */

static uint64_t high_first(const uint8_t *bytes, size_t len) {
    uint64_t number = 0;
    for (size_t i = 0; i < len; i++)
        number = number << 8 | bytes[i];
    return number;
}

/* What the picker of an image's head needs; bytes without a head are refused before memory is looked at. */
static pp_memory image_needs(const struct call *call) {
    if (call->bytes_len < HEAD_BYTES)
        return pp_memory_needed(0, 0);
    return pp_memory_needed((int64_t)high_first(call->bytes + 1, 8), (int32_t)high_first(call->bytes + 9, 4));
}

static pp_memory needs_of(const struct call *call) {
    if (call->form == FORM_new)
        return pp_memory_needed(call->numbers[0], as_i32(call->numbers[1]));
    if (call->form == FORM_read)
        return image_needs(call);
    if (standing)
        return pp_memory_needed((int64_t)words[0], (int32_t)words[1]);
    return (pp_memory){WORDS, CELLS, PARTIALS};
}

static size_t cut(uint64_t asked, uint64_t needed, size_t room) {
    return lent_length(asked == ENOUGH ? needed : asked, room);
}

pp_picker lent_to(const struct call *call) {
    pp_memory need = needs_of(call);
    return (pp_picker){
        words, cut(call->words, need.words, WORDS),
        cells, cut(call->cells, need.cells, CELLS),
        partials, cut(call->partials, need.partials, PARTIALS),
    };
}

pp_picker lent_whole(void) {
    return (pp_picker){words, WORDS, cells, CELLS, partials, PARTIALS};
}

/* ---- draws */

const uint32_t *lent_draws(const struct call *call, size_t *len) {
    static uint32_t draws[ROOM_DRAWS];
    *len = lent_length(call->draws, ROOM_DRAWS);
    if (call->seeded)
        pp_fill_draws(draws, *len, call->seed);
    else
        memset(draws, 0, sizeof draws);
    memcpy(draws, call->listed, lent_length(call->listed_len, ROOM_DRAWS) * sizeof *draws);
    return draws;
}
