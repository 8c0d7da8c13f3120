/* Text in memory. */
#include "text.h"

#include <errno.h>
#include <inttypes.h>
#include <stdarg.h>
#include <stdio.h>
#include <stdlib.h>
#include <string.h>

void bad_input(const char *format, ...) {
    va_list arguments;
    va_start(arguments, format);
    fputs("replay: ", stderr);
    vfprintf(stderr, format, arguments);
    fputs("\n", stderr);
    va_end(arguments);
    exit(2);
}

static void *memory(void *old, size_t bytes) {
    void *now = realloc(old, bytes);
    if (!now)
        bad_input("no memory for %zu bytes", bytes);
    return now;
}

struct slice read_file(const char *path) {
    FILE *file = strcmp(path, "-") == 0 ? stdin : fopen(path, "rb");
    if (!file)
        bad_input("%s: %s", path, strerror(errno));
    size_t room = 1 << 16, len = 0, more;
    char *at = memory(NULL, room);
    while ((more = fread(at + len, 1, room - len, file)) > 0) {
        len += more;
        if (len == room)
            at = memory(at, room *= 2);
    }
    if (ferror(file))
        bad_input("%s: %s", path, strerror(errno));
    if (file != stdin)
        fclose(file);
    return (struct slice){at, len};
}

bool take(struct slice *rest, char separator, struct slice *part) {
    if (!rest->at)
        return false;
    const char *end = memchr(rest->at, separator, rest->len);
    part->at = rest->at;
    part->len = end ? (size_t)(end - rest->at) : rest->len;
    rest->at = end ? end + 1 : NULL;
    rest->len = end ? rest->len - part->len - 1 : 0;
    return true;
}

bool is(struct slice text, const char *word) {
    return text.len == strlen(word) && memcmp(text.at, word, text.len) == 0;
}

bool starts(struct slice text, const char *word) {
    size_t len = strlen(word);
    return text.len >= len && memcmp(text.at, word, len) == 0;
}

bool same_text(struct slice a, struct slice b) {
    return a.len == b.len && memcmp(a.at, b.at, a.len) == 0;
}

struct line empty_line(size_t room) {
    return (struct line){memory(NULL, room), 0, room};
}

struct slice text_of(const struct line *line) {
    return (struct slice){line->at, line->len};
}

static char *more_of(struct line *line, size_t len) {
    if (len > line->room - line->len)
        bad_input("an outcome is longer than %zu bytes", line->room);
    char *at = line->at + line->len;
    line->len += len;
    return at;
}

void put(struct line *line, const char *text) {
    size_t len = strlen(text);
    memcpy(more_of(line, len), text, len);
}

void put_number(struct line *line, uint64_t number) {
    char digits[24];
    snprintf(digits, sizeof digits, "%" PRIu64, number);
    put(line, digits);
}

void put_hex(struct line *line, const uint8_t *bytes, size_t len) {
    char *at = more_of(line, 2 * len);
    for (size_t i = 0; i < len; i++) {
        at[2 * i] = "0123456789abcdef"[bytes[i] >> 4];
        at[2 * i + 1] = "0123456789abcdef"[bytes[i] & 15];
    }
}
