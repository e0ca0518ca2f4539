/* Plain writers of both texts, written by hand in C, with their refusals. As in the library, the text is measured before a byte of it is
 * written, so a refusal changes nothing. */
#include "bench.h"

#include <string.h>

static unsigned digits(unsigned n) {
    return 1 + (n > 9) + (n > 99) + (n > 999) + (n > 9999);
}

/* Each of these gives the place after what it wrote. */
static uint8_t *put_number(uint8_t *at, unsigned n) {
    uint8_t *end = at + digits(n), *digit = end;
    do *--digit = '0' + n % 10;
    while (n /= 10);
    return end;
}

static uint8_t *put_byte(uint8_t *at, uint8_t byte) {
    *at = byte;
    return at + 1;
}

static uint8_t *put_word(uint8_t *at, const char *word) {
    size_t len = strlen(word);
    memcpy(at, word, len);
    return at + len;
}

static const uint16_t *next_sets(const uint16_t *pattern, unsigned bead, unsigned state) {
    return pattern + NEXTS + 256 * bead + 16 * state;
}

static size_t rows_length(const uint16_t *pattern) {
    size_t length = 0;
    for (unsigned j = 0; j < pattern[1]; j++) {
        for (unsigned q = 0; q < pattern[STATE_COUNTS + j]; q++) {
            const uint16_t *next = next_sets(pattern, j, q);
            /* Three spaces, final and the newline; the bead has one digit. */
            length += 6 + (pattern[RULES + j] == SOME ? 4 : 3) + digits(q);
            for (unsigned a = 0; a < pattern[0]; a++) length += 1 + digits(next[a]);
        }
    }
    return length;
}

static void put_rows(const uint16_t *pattern, uint8_t *at) {
    for (unsigned j = 0; j < pattern[1]; j++) {
        for (unsigned q = 0; q < pattern[STATE_COUNTS + j]; q++) {
            const uint16_t *next = next_sets(pattern, j, q);
            at = put_number(at, j + 1);
            at = put_word(at, pattern[RULES + j] == SOME ? " SOME " : " ALL ");
            at = put_number(at, q);
            at = put_word(at, pattern[FINALS + j] >> q & 1 ? " 1" : " 0");
            for (unsigned a = 0; a < pattern[0]; a++) at = put_number(put_byte(at, ' '), next[a]);
            at = put_byte(at, '\n');
        }
    }
}

uint64_t plain_write_pattern(const uint16_t *pattern, size_t pattern_len, const uint8_t *header, size_t header_len,
                             uint8_t *text, size_t text_len) {
    if (pattern_len < RUNIN_PATTERN_LENGTH) return answer(RUNIN_REFUSED_PATTERN_SHORT, 0, 0);
    if (!is_pattern(pattern)) return answer(RUNIN_REFUSED_NO_PATTERN, 0, 0);
    if (header_labels(header, header_len) != pattern[0]) return refusal(RUNIN_REFUSED_PATTERN_HEADER, 1, header_place(header, header_len));
    size_t length = header_len + rows_length(pattern);
    if (text_len < length) return answer(RUNIN_REFUSED_TEXT_SHORT, 0, 0);
    memcpy(text, header, header_len);
    put_rows(pattern, text + header_len);
    return answer(0, 0, length);
}

static const char log_names[] = "vertex board labels preds\n";

static size_t steps_length(const uint16_t *log) {
    size_t length = 0;
    for (unsigned v = 0; v < log[0]; v++) {
        unsigned begin = log[BEGINS + v], end = log[BEGINS + v + 1];
        /* Three spaces and the newline. A link has a comma before it, but for the first; no links are a hyphen. */
        length += 4 + digits(v) + digits(log[BOARDS + v]) + digits(log[LABELS + v]);
        length += begin == end ? 1 : end - begin - 1;
        for (unsigned i = begin; i < end; i++) length += digits(log[LINKS + i]);
    }
    return length;
}

static void put_steps(const uint16_t *log, uint8_t *at) {
    for (unsigned v = 0; v < log[0]; v++) {
        unsigned begin = log[BEGINS + v], end = log[BEGINS + v + 1];
        at = put_byte(put_number(at, v), ' ');
        at = put_byte(put_number(at, log[BOARDS + v]), ' ');
        at = put_byte(put_number(at, log[LABELS + v]), ' ');
        if (begin == end) at = put_byte(at, '-');
        for (unsigned i = begin; i < end; i++) {
            if (i > begin) at = put_byte(at, ',');
            at = put_number(at, log[LINKS + i]);
        }
        at = put_byte(at, '\n');
    }
}

uint64_t plain_write_log(const uint16_t *log, size_t log_len, uint16_t label_count, uint8_t *text, size_t text_len) {
    if (log_len < RUNIN_LOG_LENGTH) return answer(RUNIN_REFUSED_LOG_SHORT, 0, 0);
    if (label_count < 1 || label_count > MOST_LABELS) return answer(RUNIN_REFUSED_LABEL_COUNT, 0, 0);
    if (!is_log(log, label_count)) return answer(RUNIN_REFUSED_NO_LOG, 0, 0);
    size_t length = strlen(log_names) + steps_length(log);
    if (text_len < length) return answer(RUNIN_REFUSED_TEXT_SHORT, 0, 0);
    put_steps(log, put_word(text, log_names));
    return answer(0, 0, length);
}
