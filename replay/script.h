/* A script of calls as docs/CALLS.md has it, taken apart a line at a time. A line that is not as described there ends the program with a
 * message that names it. */
#ifndef REPLAY_SCRIPT_H
#define REPLAY_SCRIPT_H

#include "text.h"

enum form {
#define FORM(name, arguments, options) FORM_##name,
#include "forms.h"
#undef FORM
    NUM_FORMS
};

/* A length that the script leaves out: as long as the call needs. No script can name this number. */
#define ENOUGH UINT64_MAX

enum { MAX_NUMBERS = 4 };

struct call {
    size_t line; /* of the script, from 1 */
    struct slice text;
    enum form form;
    int64_t numbers[MAX_NUMBERS]; /* arguments of kind N, in their order */
    bool has_peer;
    uint64_t peer;
    uint16_t options;
    const uint8_t *bytes;
    size_t bytes_len;
    const int64_t *list;
    size_t list_len;
    uint64_t words, cells, partials, room; /* lengths lent, or ENOUGH */
    uint64_t free;
    uint64_t draws; /* words lent: made from a seed, or those listed and then zeros */
    bool seeded;
    uint64_t seed;
    const uint32_t *listed;
    size_t listed_len;
};

/* The place in a script, and room for what one call holds; a call is whole until the next one is taken. */
struct script {
    struct slice whole;
    struct slice rest;
    size_t line;
    bool ended;
    uint8_t *bytes;
    int64_t *list;
    uint32_t *listed;
};

struct script open_script(struct slice text);
void rewind_script(struct script *script);

/* The next call; false behind the last, where the script has its `end`. */
bool next_call(struct script *script, struct call *call);

#endif
