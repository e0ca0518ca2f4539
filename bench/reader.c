/* Plain readers of both formats, written by hand in C, with document 01's refusals: a line is looked at once, split into its fields once,
 * and each number is read once. As in the library, the numbers go into a buffer of the reader's own first, so a refusal changes nothing. */
#include "fields.h"

/* How many bytes stand before the newline, or -1: over 240, no newline, or a byte outside 32 to 126. */
static int line_length(const uint8_t *text, size_t left) {
    size_t most = left > MOST_LINE + 1 ? MOST_LINE + 1 : left;
    for (size_t i = 0; i < most; i++) {
        if (text[i] == '\n') return i;
        if (text[i] < 32 || text[i] > 126) return -1;
    }
    return -1;
}

/* How many labels the header of a pattern names, or 0. */
static unsigned pattern_header(const struct bytes *fields, unsigned count) {
    if (count < 5 || count > 20) return 0;
    if (!same(fields[0], "bead") || !same(fields[1], "rule") || !same(fields[2], "state") || !same(fields[3], "final")) return 0;
    for (unsigned i = 4; i < count; i++) {
        if (!is_name(fields[i])) return 0;
        for (unsigned k = 4; k < i; k++) {
            if (equal(fields[k], fields[i])) return 0;
        }
    }
    return count - 4;
}

unsigned header_labels(const uint8_t *header, size_t header_len) {
    struct bytes fields[MOST_LINE + 1];
    int len = line_length(header, header_len);
    if (len < 0 || (size_t)len + 1 != header_len) return 0;
    unsigned count = split(header, len, fields);
    return pattern_header(fields, count);
}

/* The row of the next line, after the last bead (numbered from 1, 0 for none) and its last state. 0, or the refusal. */
static unsigned pattern_row(const struct bytes *fields, unsigned count, unsigned labels, unsigned last_state, uint16_t *buffer) {
    unsigned last = buffer[1];
    uint16_t next[MOST_LABELS];
    if (count != 4 + labels) return RUNIN_REFUSED_PATTERN_LINE;
    int32_t bead = number(fields[0]), state = number(fields[2]), final = number(fields[3]);
    if (bead < 0 || state < 0 || final < 0) return RUNIN_REFUSED_PATTERN_LINE;
    for (unsigned a = 0; a < labels; a++) {
        int32_t set = number(fields[4 + a]);
        if (set < 0) return RUNIN_REFUSED_PATTERN_LINE;
        next[a] = set;
    }
    int new_bead = last == 0 || bead != (int32_t)last;
    if (bead != (int32_t)last + new_bead || state != (new_bead ? 0 : (int32_t)last_state + 1)) return RUNIN_REFUSED_PATTERN_ORDER;
    if (bead > MOST_BEADS || state >= MOST_STATES || final > 1) return RUNIN_REFUSED_PATTERN_ORDER;
    unsigned rule = same(fields[1], "SOME") ? SOME : same(fields[1], "ALL") ? ALL : 0;
    if (rule == 0) return RUNIN_REFUSED_PATTERN_RULE;
    if (last > 0 && (rule == buffer[RULES + last - 1]) == new_bead) return RUNIN_REFUSED_PATTERN_RULE;
    buffer[1] = bead;
    buffer[RULES + bead - 1] = rule;
    buffer[STATE_COUNTS + bead - 1] = state + 1;
    buffer[FINALS + bead - 1] |= final << state;
    memcpy(buffer + NEXTS + 256 * (bead - 1) + 16 * state, next, labels * sizeof *next);
    return 0;
}

/* 15 and 16, once all lines are read. */
static uint64_t next_sets(const uint16_t *buffer) {
    unsigned line = 2;
    for (unsigned j = 0; j < buffer[1]; j++) {
        unsigned states = buffer[STATE_COUNTS + j], rule = buffer[RULES + j];
        for (unsigned q = 0; q < states; q++, line++) {
            const uint16_t *next = buffer + NEXTS + 256 * j + 16 * q;
            unsigned lacks = 0, not_one = 0;
            for (unsigned a = 0; a < buffer[0]; a++) {
                lacks |= next[a] >> states;
                not_one |= next[a] == 0 || next[a] & (next[a] - 1);
            }
            if (lacks) return answer(RUNIN_REFUSED_NEXT_STATE, line, 0);
            if (rule == ALL && not_one) return answer(RUNIN_REFUSED_NEXT_COUNT, line, 0);
        }
    }
    return 0;
}

static uint64_t pattern_refusal(const uint8_t *text, size_t text_len, unsigned number, unsigned line, const uint16_t *buffer) {
    return refusal(number, line, pattern_place(text, text_len, number, line, buffer));
}

uint64_t plain_read_pattern(const uint8_t *text, size_t text_len, uint16_t *pattern, size_t pattern_len) {
    struct bytes fields[MOST_LINE + 1];
    uint16_t buffer[RUNIN_PATTERN_LENGTH] = {0};
    if (pattern_len < RUNIN_PATTERN_LENGTH) return answer(RUNIN_REFUSED_PATTERN_SHORT, 0, 0);
    if (text_len == 0 || text_len > RUNIN_MOST_PATTERN_TEXT) return answer(RUNIN_REFUSED_PATTERN_SIZE, 0, 0);
    unsigned line = 1, state = 0;
    for (size_t at = 0; at < text_len; line++) {
        int len = line_length(text + at, text_len - at);
        if (len < 0) return pattern_refusal(text, text_len, RUNIN_REFUSED_PATTERN_LINE, line, buffer);
        unsigned count = split(text + at, len, fields);
        if (line == 1) {
            buffer[0] = pattern_header(fields, count);
            if (buffer[0] == 0) return pattern_refusal(text, text_len, RUNIN_REFUSED_PATTERN_HEADER, 1, buffer);
        } else {
            unsigned number = pattern_row(fields, count, buffer[0], state, buffer);
            if (number) return pattern_refusal(text, text_len, number, line, buffer);
            state = buffer[STATE_COUNTS + buffer[1] - 1] - 1;
        }
        at += len + 1;
    }
    if (buffer[1] == 0) return answer(RUNIN_REFUSED_PATTERN_ORDER, 1, 0);
    uint64_t late = next_sets(buffer);
    if (late) return pattern_refusal(text, text_len, RUNIN_NUMBER(late), RUNIN_LINE(late), buffer);
    memcpy(pattern, buffer, sizeof buffer);
    return answer(0, 0, buffer[1]);
}

/* The place of each column of a log: vertex, board, labels, preds. */
static int log_header(const struct bytes *fields, unsigned count, unsigned *place) {
    static const char *const names[4] = {"vertex", "board", "labels", "preds"};
    if (count != 4) return 0;
    for (unsigned c = 0; c < 4; c++) {
        unsigned i = 0;
        while (i < 4 && !same(fields[i], names[c])) i++;
        if (i == 4) return 0;
        place[c] = i;
    }
    return 1;
}

/* The numbers joined by commas: how many there are, or -1 where one is none. The first 8 are kept; `rising` says whether each is larger
 * than the one before it and smaller than v. */
static int links_of(struct bytes field, unsigned v, uint16_t *links, int *rising) {
    int count = 0;
    int32_t last = -1;
    size_t from = 0;
    *rising = 1;
    for (size_t i = 0; i <= field.len; i++) {
        if (i < field.len && field.at[i] != ',') continue;
        int32_t u = number((struct bytes){field.at + from, i - from});
        if (u < 0) return -1;
        if (u <= last || u >= (int32_t)v) *rising = 0;
        if (count < 8) links[count] = u;
        last = u;
        count++;
        from = i + 1;
    }
    return count;
}

/* The line of step v. 0, or the refusal. */
static unsigned log_step(const struct bytes *fields, unsigned fields_count, const unsigned *place, unsigned label_count, unsigned v,
                         uint16_t *buffer) {
    if (fields_count != 4) return RUNIN_REFUSED_LOG_LINE;
    int32_t vertex = number(fields[place[0]]), board = number(fields[place[1]]), labels = number(fields[place[2]]);
    if (vertex < 0 || board < 0 || board > 255 || labels < 0) return RUNIN_REFUSED_LOG_LINE;
    uint16_t links[8];
    int none = same(fields[place[3]], "-"), rising = 1;
    int count = none ? 0 : links_of(fields[place[3]], v, links, &rising);
    if (count < 0) return RUNIN_REFUSED_LOG_LINE;
    if (vertex != (int32_t)v) return RUNIN_REFUSED_STEP_NUMBER;
    if (none != (v == 0) || !rising) return RUNIN_REFUSED_LINKS;
    if (v == 0 ? labels != 0 : labels >> label_count != 0) return RUNIN_REFUSED_LABELS;
    if (count > 8 || v >= MOST_STEPS || buffer[BEGINS + v] + count > MOST_LINKS) return RUNIN_REFUSED_LOG_LIMIT;
    unsigned begin = buffer[BEGINS + v];
    buffer[0] = v + 1;
    buffer[LABELS + v] = labels;
    buffer[BOARDS + v] = board;
    buffer[BEGINS + v + 1] = begin + count;
    memcpy(buffer + LINKS + begin, links, count * sizeof *links);
    return 0;
}

static uint64_t log_refusal(const uint8_t *text, size_t text_len, unsigned number, unsigned line, const unsigned *place, const uint16_t *buffer) {
    return refusal(number, line, log_place(text, text_len, number, line, place, buffer));
}

uint64_t plain_read_log(const uint8_t *text, size_t text_len, uint16_t label_count, uint16_t *log, size_t log_len) {
    struct bytes fields[MOST_LINE + 1];
    uint16_t buffer[RUNIN_LOG_LENGTH] = {0};
    unsigned place[4] = {0};
    if (log_len < RUNIN_LOG_LENGTH) return answer(RUNIN_REFUSED_LOG_SHORT, 0, 0);
    if (label_count < 1 || label_count > MOST_LABELS) return answer(RUNIN_REFUSED_LABEL_COUNT, 0, 0);
    if (text_len == 0 || text_len > RUNIN_MOST_LOG_TEXT) return answer(RUNIN_REFUSED_LOG_SIZE, 0, 0);
    unsigned line = 1;
    for (size_t at = 0; at < text_len; line++) {
        int len = line_length(text + at, text_len - at);
        if (len < 0) return log_refusal(text, text_len, RUNIN_REFUSED_LOG_LINE, line, place, buffer);
        unsigned count = split(text + at, len, fields);
        if (line == 1) {
            if (!log_header(fields, count, place)) return log_refusal(text, text_len, RUNIN_REFUSED_LOG_HEADER, 1, place, buffer);
        } else {
            unsigned number = log_step(fields, count, place, label_count, line - 2, buffer);
            if (number) return log_refusal(text, text_len, number, line, place, buffer);
        }
        at += len + 1;
    }
    if (buffer[0] == 0) return answer(RUNIN_REFUSED_LOG_LIMIT, 1, 0);
    memcpy(log, buffer, sizeof buffer);
    return answer(0, 0, buffer[0]);
}
