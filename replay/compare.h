/* The recorded outcomes, and what was answered held against them. */
#ifndef REPLAY_COMPARE_H
#define REPLAY_COMPARE_H

#include "script.h"

/* The place in the recorded outcomes. */
struct outcomes {
    struct slice rest;
    size_t line;
};

/* Ends the program with status 2 where the text is not ASCII or was cut short: its last line is `end` and a number. */
struct outcomes open_outcomes(struct slice text);

/* Whether the next recorded line is this one. If not, both are shown, with the call or NULL for the end. */
bool as_recorded(struct outcomes *outcomes, const struct call *call, struct slice got);

/* Whether nothing is recorded behind what was taken. */
bool all_taken(struct outcomes *outcomes);

#endif
