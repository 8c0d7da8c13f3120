/* Text in memory: a file read whole, its lines and words, and a line that is put together. */
#ifndef REPLAY_TEXT_H
#define REPLAY_TEXT_H

#include <stdbool.h>
#include <stddef.h>
#include <stdint.h>

/* Part of a text; it ends by its length alone. */
struct slice {
    const char *at;
    size_t len;
};

/* A line under work, in lent room. */
struct line {
    char *at;
    size_t len;
    size_t room;
};

/* Ends the program with a message on standard error and status 2: what was given to it is not as it has to be. */
_Noreturn void bad_input(const char *format, ...) __attribute__((format(printf, 1, 2)));

/* A file, or standard input for `-`. */
struct slice read_file(const char *path);

/* What stands before the next separator, or all where there is none; `rest` goes on behind it. False where nothing is left to take. */
bool take(struct slice *rest, char separator, struct slice *part);

bool is(struct slice text, const char *word);
bool starts(struct slice text, const char *word);
bool same_text(struct slice a, struct slice b);

struct line empty_line(size_t room);
struct slice text_of(const struct line *line);
void put(struct line *line, const char *text);
void put_number(struct line *line, uint64_t number);
void put_hex(struct line *line, const uint8_t *bytes, size_t len);

#endif
