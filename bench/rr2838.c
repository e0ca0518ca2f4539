/* The judge by the procedure of RR-2838 (Hurfin, Raynal: Detecting Diamond Necklaces in Labeled Dags), written straightforwardly.
 *
 * Steps are visited in their order. start_states[v][k][u] is the set of the states in which a copy of automaton k, started at u, can be
 * after a reading of some route from u to v; at u = v it is the start of a copy launched there. As Figure 3 of the paper has it, a copy is
 * tested in the visit that launches it too: a step has a route to itself. Where the paper and document 01 differ, document 01 is followed:
 * ALL asks for a route; a step without labels leaves the states as they are; each pivot is the smallest that serves.
 *
 * How fast this is depends much on how members of small sets are found, so a tuned form stands beside the straightforward one. */
#include "bench.h"

#include <string.h>

static uint16_t start_states[MOST_STEPS][MOST_BEADS][MOST_STEPS];

/* Lines 3 to 5 for one u: the states to which entering a step leads automaton k from the set. Straightforward: every state and every
 * label is asked whether it belongs. */
static uint16_t enter(const uint16_t *pattern, unsigned k, unsigned labels, unsigned set) {
    uint16_t to = 0;
    for (unsigned q = 0; q < pattern[STATE_COUNTS + k]; q++) {
        if (!(set >> q & 1)) continue;
        for (unsigned a = 0; a < pattern[0]; a++) {
            if (labels >> a & 1) to |= pattern[NEXTS + 256 * k + 16 * q + a];
        }
    }
    return to;
}

/* The same, tuned: members are found by counting trailing zeros. */
static uint16_t enter_tuned(const uint16_t *pattern, unsigned k, unsigned labels, unsigned set) {
    uint16_t to = 0;
    for (unsigned qs = set; qs; qs &= qs - 1) {
        const uint16_t *next = pattern + NEXTS + 256 * k + 16 * __builtin_ctz(qs);
        for (unsigned as = labels; as; as &= as - 1) to |= next[__builtin_ctz(as)];
    }
    return to;
}

/* Lines 1 to 5: the copies launched in the past of v go on. Without labels their states stay. */
static inline void recognize(const uint16_t *pattern, const uint16_t *log, unsigned v, unsigned k, int tuned) {
    unsigned labels = log[LABELS + v];
    uint16_t *here = start_states[v][k];
    memset(here, 0, (v + 1) * sizeof *here);
    for (unsigned i = log[BEGINS + v]; i < log[BEGINS + v + 1]; i++) {
        unsigned p = log[LINKS + i];
        const uint16_t *there = start_states[p][k];
        for (unsigned u = 0; u <= p; u++) {
            if (there[u] == 0) continue;
            if (labels == 0) here[u] |= there[u];
            else here[u] |= tuned ? enter_tuned(pattern, k, labels, there[u]) : enter(pattern, k, labels, there[u]);
        }
    }
}

/* The smallest u up to v whose copy of automaton k recognizes at v, or a number past v where there is none: the tests of lines 6 and 8. */
static unsigned recognized(const uint16_t *pattern, unsigned v, unsigned k) {
    const uint16_t *here = start_states[v][k];
    unsigned final = pattern[FINALS + k], u = 0;
    if (pattern[RULES + k] == ALL) {
        while (u <= v && !(here[u] && !(here[u] & ~final))) u++;
    } else {
        while (u <= v && !(here[u] & final)) u++;
    }
    return u;
}

/* One visit; the set of prefixes that hold at v. */
static inline uint16_t visit(const uint16_t *pattern, const uint16_t *log, unsigned v, int tuned) {
    unsigned beads = pattern[1];
    uint16_t prefixes = 0;
    for (unsigned k = 0; k < beads; k++) recognize(pattern, log, v, k, tuned);
    if (v == 0) start_states[0][0][0] = 1;
    for (unsigned k = 0; k < beads; k++) {
        if (recognized(pattern, v, k) > v) continue;
        prefixes |= 1u << k;
        /* Lines 7 and 9: a copy of the next automaton starts here, and is tested next. */
        if (k + 1 < beads) start_states[v][k + 1][v] = 1;
    }
    return prefixes;
}

static void write_pivots(const uint16_t *pattern, unsigned v, uint16_t *row) {
    unsigned beads = pattern[1], p = v;
    row[1 + beads] = v;
    for (unsigned k = beads; k-- > 0;) {
        p = recognized(pattern, p, k);
        row[1 + k] = p;
    }
}

static inline uint64_t judge_by(const uint16_t *pattern, const uint16_t *log, uint16_t *result, uint16_t *work, int tuned) {
    unsigned count = 0;
    memset(result, 0, RUNIN_RESULT_LENGTH * sizeof *result);
    memset(work, 0, RUNIN_WORK_LENGTH * sizeof *work);
    for (unsigned v = 0; v < log[0]; v++) {
        uint16_t *row = result + RUNIN_ROW_LENGTH * v;
        row[0] = visit(pattern, log, v, tuned);
        if (row[0] >> (pattern[1] - 1) & 1) {
            write_pivots(pattern, v, row);
            count++;
        }
    }
    return answer(0, 0, count);
}

uint64_t rr2838_judge(const uint16_t *pattern, size_t pattern_len, const uint16_t *log, size_t log_len,
                      uint16_t *result, size_t result_len, uint16_t *work, size_t work_len) {
    unsigned number = buffers_refused(pattern, pattern_len, log, log_len, result_len, work_len);
    return number ? answer(number, 0, 0) : judge_by(pattern, log, result, work, 0);
}

uint64_t rr2838_tuned_judge(const uint16_t *pattern, size_t pattern_len, const uint16_t *log, size_t log_len,
                            uint16_t *result, size_t result_len, uint16_t *work, size_t work_len) {
    unsigned number = buffers_refused(pattern, pattern_len, log, log_len, result_len, work_len);
    return number ? answer(number, 0, 0) : judge_by(pattern, log, result, work, 1);
}
