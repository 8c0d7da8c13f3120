/* The recorded outcomes, and what was answered held against them. */
#include "compare.h"

#include <stdio.h>
#include <string.h>

enum { SHOWN_BEFORE = 60, SHOWN = 160 };

static void demand_ascii(struct slice text) {
    for (size_t i = 0; i < text.len; i++)
        if ((unsigned char)text.at[i] > 127)
            bad_input("the outcomes are not ASCII at byte %zu", i);
}

static void demand_end(struct slice text) {
    struct slice line = {"", 0}, last = line, rest = text;
    while (take(&rest, '\n', &line))
        if (rest.at)
            last = line;
    if (line.len != 0 || !starts(last, "end "))
        bad_input("the outcomes were cut short: their last line is not `end` and a number");
}

struct outcomes open_outcomes(struct slice text) {
    demand_ascii(text);
    demand_end(text);
    return (struct outcomes){text, 0};
}

/* The next line but for those that name a difference which the oracle met. */
static bool next_outcome(struct outcomes *outcomes, struct slice *line) {
    while (take(&outcomes->rest, '\n', line)) {
        outcomes->line++;
        if (!starts(*line, "difference "))
            return true;
    }
    return false;
}

static size_t first_difference(struct slice a, struct slice b) {
    size_t k = 0;
    while (k < a.len && k < b.len && a.at[k] == b.at[k])
        k++;
    return k;
}

/* A line from a place on, as much of it as one can read. */
static void show(const char *what, struct slice line, size_t from) {
    size_t len = line.len - from < SHOWN ? line.len - from : SHOWN;
    const char *before = from > 0 ? ".." : "", *behind = from + len < line.len ? ".." : "";
    fprintf(stderr, "  %s %s%.*s%s\n", what, before, (int)len, line.at + from, behind);
}

static void show_difference(const struct outcomes *outcomes, const struct call *call, struct slice due, struct slice got) {
    size_t at = first_difference(due, got), from = at > SHOWN_BEFORE ? at - SHOWN_BEFORE : 0;
    if (call)
        fprintf(stderr, "replay: script line %zu, outcome line %zu, from character %zu on\n", call->line, outcomes->line, at + 1);
    else
        fprintf(stderr, "replay: the end, outcome line %zu\n", outcomes->line);
    if (call)
        show("call:    ", call->text, 0);
    show("expected:", due, from);
    show("got:     ", got, from);
}

bool as_recorded(struct outcomes *outcomes, const struct call *call, struct slice got) {
    struct slice due = {"(nothing more is recorded)", 26};
    bool same = next_outcome(outcomes, &due) && same_text(due, got);
    if (!same)
        show_difference(outcomes, call, due, got);
    return same;
}

bool all_taken(struct outcomes *outcomes) {
    struct slice line;
    bool more = next_outcome(outcomes, &line) && line.len > 0;
    if (more)
        fprintf(stderr, "replay: outcome line %zu stands behind the last call's\n", outcomes->line);
    return !more;
}
