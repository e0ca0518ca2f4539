/* The host's faults: buffers too short, or not what some accepted text gives. Judges and writers in C test what they are lent, as the
 * library does, so that the comparison is fair. */
#include "bench.h"

int is_pattern(const uint16_t *p) {
    unsigned labels = p[0], beads = p[1];
    if (labels < 1 || labels > MOST_LABELS || beads < 1 || beads > MOST_BEADS) return 0;
    for (unsigned j = 0; j < MOST_BEADS; j++) {
        unsigned rule = p[RULES + j], states = p[STATE_COUNTS + j], final = p[FINALS + j];
        if (j >= beads) {
            if (rule || states || final) return 0;
            continue;
        }
        if (rule < SOME || rule > ALL || (j > 0 && rule == p[RULES + j - 1])) return 0;
        if (states < 1 || states > MOST_STATES || final >> states) return 0;
    }
    for (unsigned j = 0; j < MOST_BEADS; j++) {
        unsigned rule = p[RULES + j], states = p[STATE_COUNTS + j];
        for (unsigned q = 0; q < MOST_STATES; q++) {
            for (unsigned a = 0; a < MOST_LABELS; a++) {
                unsigned next = p[NEXTS + 256 * j + 16 * q + a];
                if (q >= states || a >= labels) {
                    if (next) return 0;
                } else if (next >> states || (rule == ALL && (next == 0 || next & (next - 1)))) {
                    return 0;
                }
            }
        }
    }
    return 1;
}

int is_log(const uint16_t *log, unsigned labels) {
    unsigned steps = log[0];
    if (steps < 1 || steps > MOST_STEPS || log[BEGINS] != 0) return 0;
    if (log[LABELS] != 0 || log[BEGINS + 1] != 0) return 0;
    for (unsigned v = 0; v < steps; v++) {
        if (log[LABELS + v] >> labels || log[BOARDS + v] > 255) return 0;
        if (v == 0) continue;
        unsigned begin = log[BEGINS + v], end = log[BEGINS + v + 1];
        if (end <= begin || end - begin > 8 || end > MOST_LINKS) return 0;
        for (unsigned i = begin; i < end; i++) {
            if (log[LINKS + i] >= v || (i > begin && log[LINKS + i] <= log[LINKS + i - 1])) return 0;
        }
    }
    for (unsigned v = steps; v < MOST_STEPS; v++) {
        if (log[LABELS + v] || log[BOARDS + v] || log[BEGINS + v + 1]) return 0;
    }
    for (unsigned i = log[BEGINS + steps]; i < MOST_LINKS; i++) {
        if (log[LINKS + i]) return 0;
    }
    return 1;
}

unsigned buffers_refused(const uint16_t *pattern, size_t pattern_len, const uint16_t *log, size_t log_len,
                         size_t result_len, size_t work_len) {
    if (log_len < RUNIN_LOG_LENGTH) return RUNIN_REFUSED_LOG_SHORT;
    if (pattern_len < RUNIN_PATTERN_LENGTH) return RUNIN_REFUSED_PATTERN_SHORT;
    if (result_len < RUNIN_RESULT_LENGTH) return RUNIN_REFUSED_RESULT_SHORT;
    if (work_len < RUNIN_WORK_LENGTH) return RUNIN_REFUSED_WORK_SHORT;
    if (!is_pattern(pattern)) return RUNIN_REFUSED_NO_PATTERN;
    if (!is_log(log, pattern[0])) return RUNIN_REFUSED_NO_LOG;
    return 0;
}
