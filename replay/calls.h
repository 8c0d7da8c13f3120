/* The linked code led through one call after the other, in one memory. */
#ifndef REPLAY_CALLS_H
#define REPLAY_CALLS_H

#include "script.h"

/* Makes the call and puts the first line of its outcome. */
void lead(const struct call *call, struct line *answer);

/* Takes the image and puts the second line: the image, `same` as after the call before, or `none`. */
void put_image(struct line *line);

#endif
