/* What the plain readers share with the search for a place at fault: a line's fields, numbers, names. */
#ifndef FIELDS_H
#define FIELDS_H

#include "bench.h"

#include <string.h>

struct bytes {
    const uint8_t *at;
    size_t len;
};

/* Splits at every space; a line of 240 bytes has at most 241 fields. */
static inline unsigned split(const uint8_t *line, size_t len, struct bytes *fields) {
    unsigned count = 0;
    size_t from = 0;
    for (size_t i = 0; i <= len; i++) {
        if (i < len && line[i] != ' ') continue;
        fields[count++] = (struct bytes){line + from, i - from};
        from = i + 1;
    }
    return count;
}

/* The decimal number, 0 to 65,535 without a leading zero, or -1. */
static inline int32_t number(struct bytes field) {
    if (field.len == 0 || field.len > 5 || (field.at[0] == '0' && field.len > 1)) return -1;
    int32_t value = 0;
    for (size_t i = 0; i < field.len; i++) {
        if (field.at[i] < '0' || field.at[i] > '9') return -1;
        value = 10 * value + field.at[i] - '0';
    }
    return value > 65535 ? -1 : value;
}

static inline int same(struct bytes a, const char *word) {
    return a.len == strlen(word) && memcmp(a.at, word, a.len) == 0;
}

static inline int is_name(struct bytes field) {
    if (field.len < 1 || field.len > 12) return 0;
    for (size_t i = 0; i < field.len; i++) {
        uint8_t b = field.at[i];
        if (!(b >= '0' && b <= '9') && !(b >= 'a' && b <= 'z')) return 0;
    }
    return 1;
}

static inline int equal(struct bytes a, struct bytes b) {
    return a.len == b.len && memcmp(a.at, b.at, b.len) == 0;
}

/* places.c: where in its line a refusal is, looked for only after it. The buffer holds what was read before. A log's columns are in `place`. */
unsigned pattern_place(const uint8_t *text, size_t text_len, unsigned number, unsigned line, const uint16_t *buffer);
unsigned log_place(const uint8_t *text, size_t text_len, unsigned number, unsigned line, const unsigned *place, const uint16_t *buffer);

#endif
