/* A script of calls, taken apart a line at a time. */
#include "script.h"

#include <inttypes.h>
#include <stdlib.h>
#include <string.h>

enum { WITH_DRAWS = 1, WITH_ROOM = 2, WITH_FREE = 4, QUOTED = 80, LENT_DRAWS = 4352, LENT_FREE = 4351 };

static const struct {
    const char *name;
    const char *arguments;
    unsigned options;
} forms[] = {
#define FORM(name, arguments, options) {#name, arguments, options},
#include "forms.h"
#undef FORM
};

/* ---- messages */

/* Ends the program: what is wrong with a word of the line, which is quoted in part. */
static _Noreturn void bad_word(const struct script *script, const char *what, struct slice word) {
    char quoted[QUOTED + 1];
    size_t len = word.len < QUOTED ? word.len : QUOTED;
    for (size_t i = 0; i < len; i++)
        quoted[i] = word.at[i] < ' ' || word.at[i] > '~' ? '?' : word.at[i];
    quoted[len] = 0;
    bad_input("line %zu: %s: '%s'", script->line, what, quoted);
}

/* ---- numbers */

/* Digits with no zero in front, as a number of 64 bits. */
static bool digits_of(struct slice word, uint64_t *number) {
    if (word.len == 0 || (word.len > 1 && word.at[0] == '0'))
        return false;
    *number = 0;
    for (size_t i = 0; i < word.len; i++) {
        if (word.at[i] < '0' || word.at[i] > '9')
            return false;
        uint64_t digit = (uint64_t)(word.at[i] - '0');
        if (*number > (UINT64_MAX - digit) / 10)
            return false;
        *number = *number * 10 + digit;
    }
    return true;
}

static uint64_t number_up_to(const struct script *script, struct slice word, uint64_t highest) {
    uint64_t number;
    if (!digits_of(word, &number) || number > highest)
        bad_word(script, "not a number from 0 up, or too large", word);
    return number;
}

/* From -2^63 to 2^63 - 1. */
static int64_t number_of(const struct script *script, struct slice word) {
    bool below = starts(word, "-");
    struct slice digits = {word.at + below, word.len - below};
    uint64_t number;
    if (!digits_of(digits, &number) || number > (uint64_t)INT64_MAX + below || (below && number == 0))
        bad_word(script, "not a number of 64 bits", word);
    return below ? -(int64_t)(number - 1) - 1 : (int64_t)number;
}

/* ---- arguments */

static void take_peer(const struct script *script, struct slice word, struct call *call) {
    call->has_peer = !is(word, "-");
    call->peer = call->has_peer ? number_up_to(script, word, UINT64_MAX) : 0;
}

static int hex_digit(char c) {
    if (c >= '0' && c <= '9')
        return c - '0';
    if (c >= 'a' && c <= 'f')
        return c - 'a' + 10;
    return c >= 'A' && c <= 'F' ? c - 'A' + 10 : -1;
}

static void take_bytes(struct script *script, struct slice word, struct call *call) {
    call->bytes = script->bytes;
    call->bytes_len = 0;
    if (is(word, "-"))
        return;
    if (word.len == 0 || word.len % 2 != 0)
        bad_word(script, "not bytes in hexadecimal", word);
    for (size_t i = 0; i < word.len; i += 2) {
        int high = hex_digit(word.at[i]), low = hex_digit(word.at[i + 1]);
        if (high < 0 || low < 0)
            bad_word(script, "not bytes in hexadecimal", word);
        script->bytes[call->bytes_len++] = (uint8_t)(16 * high + low);
    }
}

static void take_list(struct script *script, struct slice word, struct call *call) {
    call->list = script->list;
    call->list_len = 0;
    struct slice item;
    if (is(word, "-"))
        return;
    while (take(&word, ',', &item))
        script->list[call->list_len++] = number_of(script, item);
}

/* The argument of a kind; `numbers` counts those of kind N so far. */
static void take_argument(struct script *script, char kind, struct slice word, struct call *call, size_t *numbers) {
    switch (kind) {
    case 'N':
        call->numbers[(*numbers)++] = number_of(script, word);
        break;
    case 'P':
        take_peer(script, word, call);
        break;
    case 'O':
        call->options = (uint16_t)number_up_to(script, word, UINT16_MAX);
        break;
    case 'H':
        take_bytes(script, word, call);
        break;
    default:
        take_list(script, word, call);
    }
}

static void take_arguments(struct script *script, struct slice *words, struct call *call) {
    size_t numbers = 0;
    struct slice word;
    for (const char *kind = forms[call->form].arguments; *kind; kind++) {
        if (!take(words, ' ', &word))
            bad_word(script, "arguments are missing", call->text);
        take_argument(script, *kind, word, call, &numbers);
    }
}

/* ---- options */

static void take_listed(struct script *script, struct slice words, struct call *call) {
    struct slice word;
    while (take(&words, ',', &word)) {
        if (call->listed_len == call->draws)
            bad_word(script, "more words listed than lent", call->text);
        script->listed[call->listed_len++] = (uint32_t)number_up_to(script, word, UINT32_MAX);
    }
}

/* `N`, `N~S` or `N:W,W,..` */
static void take_draws(struct script *script, struct slice value, struct call *call) {
    struct slice many;
    call->seeded = memchr(value.at, '~', value.len) != NULL;
    take(&value, call->seeded ? '~' : ':', &many);
    call->draws = number_up_to(script, many, INT64_MAX);
    if (call->seeded)
        call->seed = number_up_to(script, value, UINT64_MAX);
    else if (value.at)
        take_listed(script, value, call);
}

/* Where the length of an option goes, or NULL where the call has no such option. */
static uint64_t *place_of(struct slice key, struct call *call) {
    unsigned options = forms[call->form].options;
    if (is(key, "words"))
        return &call->words;
    if (is(key, "cells"))
        return &call->cells;
    if (is(key, "partials"))
        return &call->partials;
    if (is(key, "room") && options & WITH_ROOM)
        return &call->room;
    if (is(key, "free") && options & WITH_FREE)
        return &call->free;
    return is(key, "draws") && options & WITH_DRAWS ? &call->draws : NULL;
}

static void take_option(struct script *script, struct slice word, struct call *call) {
    struct slice value = word, key;
    take(&value, '=', &key);
    uint64_t *place = place_of(key, call);
    if (!value.at || !place)
        bad_word(script, "no option of this call", word);
    if (*place != ENOUGH)
        bad_word(script, "an option comes twice", word);
    if (place == &call->draws)
        take_draws(script, value, call);
    else
        *place = number_up_to(script, value, INT64_MAX);
}

static void take_options(struct script *script, struct slice *words, struct call *call) {
    call->words = call->cells = call->partials = call->room = call->free = call->draws = ENOUGH;
    call->seeded = false;
    call->listed = script->listed;
    call->listed_len = 0;
    struct slice word;
    while (take(words, ' ', &word))
        take_option(script, word, call);
    if (call->draws == ENOUGH)
        call->draws = LENT_DRAWS;
    if (call->free == ENOUGH)
        call->free = LENT_FREE;
}

/* ---- lines */

static enum form form_of(const struct script *script, struct slice name) {
    for (size_t k = 0; k < NUM_FORMS; k++)
        if (is(name, forms[k].name))
            return (enum form)k;
    bad_word(script, "no such call", name);
}

static void take_call(struct script *script, struct slice text, struct call *call) {
    struct slice words = text, name;
    take(&words, ' ', &name);
    call->line = script->line;
    call->text = text;
    call->form = form_of(script, name);
    take_arguments(script, &words, call);
    take_options(script, &words, call);
}

static void demand_ascii(const struct script *script, struct slice line) {
    for (size_t i = 0; i < line.len; i++)
        if ((unsigned char)line.at[i] > 127)
            bad_input("line %zu: not ASCII", script->line);
}

bool next_call(struct script *script, struct call *call) {
    struct slice line;
    while (take(&script->rest, '\n', &line)) {
        script->line++;
        demand_ascii(script, line);
        if (line.len == 0 || line.at[0] == '#')
            continue;
        if (script->ended)
            bad_word(script, "something after the end", line);
        script->ended = is(line, "end");
        if (script->ended)
            continue;
        take_call(script, line, call);
        return true;
    }
    if (!script->ended)
        bad_input("line %zu: the script has no `end`", script->line);
    return false;
}

/* ---- the whole */

static void *room_for(size_t many, size_t bytes) {
    void *room = calloc(many + 1, bytes);
    if (!room)
        bad_input("no memory for %zu numbers", many);
    return room;
}

/* No line holds more bytes or numbers than the script has characters. */
struct script open_script(struct slice text) {
    struct script script = {.whole = text};
    script.bytes = room_for(text.len, sizeof *script.bytes);
    script.list = room_for(text.len, sizeof *script.list);
    script.listed = room_for(text.len, sizeof *script.listed);
    rewind_script(&script);
    return script;
}

void rewind_script(struct script *script) {
    script->rest = script->whole;
    script->line = 0;
    script->ended = false;
}
