/* What is lent to the linked code: the memory of one picker, words to draw from, and room for answers. */
#ifndef REPLAY_LENT_H
#define REPLAY_LENT_H

#include "piece_picker_inline.h"
#include "script.h"

/* Room for the largest answer of each kind and one place more. A script may lend lengths that no machine has; they are cut to these, which
 * is as good: no call needs more, and none touches what it does not need. */
enum {
    ROOM_DRAWS = 8192,
    ROOM_OUTPUT = PP_MAX_OUTPUT + 1,
    ROOM_PIECES = PP_MAX_PIECES + 1,
    ROOM_WORDS = (PP_MAX_PARTIALS + 1) * PP_DOWNLOAD_QUEUE_NUMBERS,
    ROOM_IMAGE = 1768497 + 1
};
_Static_assert(ROOM_WORDS >= (PP_MAX_BLOCKS_PER_PIECE + 1) * PP_BLOCKS_FOR_PIECE_NUMBERS, "room for the blocks of a piece");

/* The picker's buffers as this call lends them: as the script says, else exactly as long as the call needs. */
pp_picker lent_to(const struct call *call);

/* The memory whole, for the image after a call. */
pp_picker lent_whole(void);

/* Lent memory all zeros: no picker stands in it. */
void zero_memory(void);

/* Whether a picker stands in the memory; what a call needs depends on it. */
void say_standing(bool stands);

/* The words lent to draw from, made anew for each call. */
const uint32_t *lent_draws(const struct call *call, size_t *len);

/* The lesser of a length of the script and of the room there is. */
size_t lent_length(uint64_t asked, size_t room);

/* A number of a script as the exports take it, see lent.c. */
int32_t as_i32(int64_t number);
uint8_t as_u8(int64_t number);

/* How many numbers so far had no place in the exports' types, and were given as the nearest. */
size_t numbers_moved(void);

#endif
