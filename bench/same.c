/* The judge by the library's algorithm, written by hand in C. Sixteen forward passes go at once, a lane each: `work` has for each step 16
 * numbers, one a state, the set of the lanes that are in that state there. The first phase finds bead by bead the steps at which the beads up
 * to it hold, the walk back the pivots, both by passes from starting steps, in the library's order and with the same work skipped. */
#include "bench.h"

#include <string.h>

enum { LANES = 16 };

/* The set that has one state, one label or one lane only. It is a table, and the loops that use it have no branches, so that the compiler
 * looks at all sixteen at once. */
static const uint16_t values[16] = {1, 2, 4, 8, 16, 32, 64, 128, 256, 512, 1024, 2048, 4096, 8192, 16384, 32768};

/* All sixteen bits if i is in the set, else none. */
static inline uint16_t all_if(uint16_t set, unsigned i) {
    return -((set & values[i]) == values[i]);
}

/* What is at hand. `hopes` has for each bead the states from which an accepting one can be reached, `last` for each step the last one it has
 * a link to. A pass begins with the lanes of `seeds` and leaves in `found` for each step those that reach it. */
struct judging {
    const uint16_t *pattern, *log;
    uint16_t *work;
    unsigned beads, steps;
    uint16_t hopes[MOST_BEADS], last[MOST_STEPS], seeds[MOST_STEPS], found[MOST_STEPS];
    uint16_t prefixes[MOST_STEPS], pivots[MOST_BEADS + 1][MOST_STEPS];
};

/* The starting steps of a pass lie from `first` on and below `until`; there are none if these are equal. The next ones lie from `to` on. */
struct starts {
    unsigned first, until, to;
};

/* Upwards, so that the last step stays. */
static void last_links(struct judging *j) {
    const uint16_t *log = j->log;
    for (unsigned v = 0; v < j->steps; v++) {
        for (unsigned i = log[BEGINS + v]; i < log[BEGINS + v + 1]; i++) j->last[log[LINKS + i]] = v;
    }
}

/* The accepting states, grown by those that lead into the set until nothing is added. */
static uint16_t hopeful(const uint16_t *pattern, unsigned bead) {
    uint16_t onwards[MOST_STATES] = {0}, set = pattern[FINALS + bead], before;
    for (unsigned q = 0; q < MOST_STATES; q++) {
        for (unsigned a = 0; a < MOST_LABELS; a++) onwards[q] |= pattern[NEXTS + 256 * bead + 16 * q + a];
    }
    do {
        before = set;
        for (unsigned q = 0; q < MOST_STATES; q++) set |= onwards[q] & before ? values[q] : 0;
    } while (set != before);
    return set;
}

/* Adds the lanes of the predecessors of x, state by state. What `work` has before the first starting step is of another pass. */
static inline void gather(const struct judging *j, unsigned first, unsigned x, uint16_t *restrict here) {
    const uint16_t *log = j->log;
    for (unsigned i = log[BEGINS + x], end = log[BEGINS + x + 1]; i < end; i++) {
        unsigned w = log[LINKS + i];
        if (w < first) continue;
        const uint16_t *restrict there = j->work + 16 * w;
        for (unsigned q = 0; q < MOST_STATES; q++) here[q] |= there[q];
    }
}

/* The states that entering a step with these labels leads to; by the next sets of the state left. */
static inline uint16_t enter(const uint16_t *restrict next, uint16_t labels) {
    uint16_t all = 0;
    for (unsigned a = 0; a < MOST_LABELS; a++) all |= next[a] & all_if(labels, a);
    return all;
}

/* Adds the lanes to each state of the set. */
static inline void spread(uint16_t set, uint16_t lanes, uint16_t *restrict to) {
    for (unsigned q = 0; q < MOST_STATES; q++) to[q] |= lanes & all_if(set, q);
}

/* The lanes that are in some state of the set; by the lanes of a step. */
static inline uint16_t lanes_with(const uint16_t *restrict here, uint16_t set) {
    uint16_t all = 0;
    for (unsigned q = 0; q < MOST_STATES; q++) all |= here[q] & all_if(set, q);
    return all;
}

/* Puts down at x the lanes that arrive there and those that begin there. Without labels every lane stays in its state; with them nothing is
 * looked up for a state without lanes. Most steps begin no lane, and writing one number of a row just before all are read takes time. */
static inline void turn(const struct judging *j, unsigned bead, unsigned first, unsigned x, uint16_t begin) {
    uint16_t before[MOST_STATES] = {0}, after[MOST_STATES] = {0}, *here = before;
    uint16_t labels = j->log[LABELS + x];
    gather(j, first, x, before);
    if (labels) {
        const uint16_t *nexts = j->pattern + NEXTS + 256 * bead;
        for (unsigned q = 0; q < MOST_STATES; q++) {
            if (before[q]) spread(enter(nexts + 16 * q, labels), before[q], after);
        }
        here = after;
    }
    if (begin) here[0] |= begin;
    memcpy(j->work + 16 * x, here, sizeof after);
}

/* The lanes that are in some state of the set at a step, and for ALL in no other; by the lanes there. With the accepting states: those with
 * which the bead holds. With the hopeful ones: those that may come to it yet. */
static inline uint16_t reaching(const struct judging *j, unsigned bead, uint16_t set, const uint16_t *here) {
    uint16_t in = lanes_with(here, set);
    if (j->pattern[RULES + bead] == ALL) return in & ~lanes_with(here, ~set);
    return in;
}

/* Finds for each step the lanes that reach it. Past `reach` no step has a link from one at which a lane is alive: there the pass ends. */
static void pass(struct judging *j, unsigned bead, struct starts starts) {
    memset(j->found, 0, sizeof j->found);
    if (starts.first == starts.until) return;
    for (unsigned x = starts.first, reach = starts.until - 1; x <= reach; x++) {
        const uint16_t *here = j->work + 16 * x;
        turn(j, bead, starts.first, x, x < starts.until ? j->seeds[x] : 0);
        j->found[x] = reaching(j, bead, j->pattern[FINALS + bead], here);
        if (j->last[x] > reach && reaching(j, bead, j->hopes[bead], here)) reach = j->last[x];
    }
}

/* Do the beads before this one hold at u? */
static int prefix_at(const struct judging *j, unsigned bead, unsigned u) {
    return bead == 0 ? u == 0 : j->prefixes[u] >> (bead - 1) & 1;
}

/* The starting steps from `from` on: the next sixteen, a lane each, if `advance` is 1, and all of them in lane 0 if it is 0. */
static struct starts choose(struct judging *j, unsigned bead, unsigned from, unsigned advance) {
    struct starts starts = {from, from, from};
    for (unsigned lane = 0; starts.to < j->steps && lane < LANES;) {
        unsigned u = starts.to++;
        j->seeds[u] = 0;
        if (!prefix_at(j, bead, u)) continue;
        j->seeds[u] = values[lane];
        lane += advance;
        if (starts.until == from) starts.first = u;
        starts.until = starts.to;
    }
    return starts;
}

/* Has every step from u on the bead already? Late steps lack it longest. */
static int all_marked(const struct judging *j, unsigned bead, unsigned u) {
    unsigned v = j->steps;
    while (u < v && j->prefixes[v - 1] >> bead & 1) v--;
    return v <= u;
}

/* The first phase. SOME asks for some starting step and not for which, so all go in one lane, in one pass; ALL asks each by itself. */
static void mark_prefixes(struct judging *j) {
    for (unsigned k = 0; k < j->beads; k++) {
        for (unsigned from = 0; from < j->steps && !all_marked(j, k, from);) {
            struct starts starts = choose(j, k, from, j->pattern[RULES + k] == ALL);
            pass(j, k, starts);
            for (unsigned v = from; v < j->steps; v++) j->prefixes[v] |= (j->found[v] != 0) << k;
            from = starts.to;
        }
    }
}

static int is_whole(const struct judging *j, unsigned v) {
    return j->prefixes[v] >> (j->beads - 1) & 1;
}

/* A step at which the whole pattern holds searches for each pivot but the last, which is itself: its places have the step count, no step. */
static void begin_walk(struct judging *j) {
    for (unsigned k = 0; k < j->beads; k++) {
        for (unsigned v = 0; v < j->steps; v++) j->pivots[k][v] = is_whole(j, v) ? j->steps : 0;
    }
    for (unsigned v = 0; v < j->steps; v++) j->pivots[j->beads][v] = v;
}

/* Does no step from `from` on search any more? Late steps search longest. */
static int none_search(const struct judging *j, unsigned k, unsigned from) {
    unsigned v = j->steps;
    while (from < v && j->pivots[k][v - 1] != j->steps) v--;
    return v <= from;
}

/* A round: each step that still searches picks the smallest candidate, of those from `from` on and below `to`, that reaches its target. */
static void pick(struct judging *j, unsigned k, unsigned from, unsigned to) {
    for (unsigned v = from; v < j->steps; v++) {
        if (j->pivots[k][v] != j->steps) continue;
        unsigned lanes = j->found[j->pivots[k + 1][v]], u = from;
        if (lanes == 0) continue;
        while (u < to && !(j->seeds[u] & lanes)) u++;
        j->pivots[k][v] = u;
    }
}

/* Beads downwards, in each the candidates upwards, a round for every sixteen. */
static void walk_back(struct judging *j) {
    begin_walk(j);
    for (unsigned k = j->beads; k-- > 0;) {
        for (unsigned from = 0; from < j->steps && !none_search(j, k, from);) {
            struct starts starts = choose(j, k, from, 1);
            pass(j, k, starts);
            pick(j, k, from, starts.to);
            from = starts.to;
        }
    }
}

static unsigned write_rows(const struct judging *j, uint16_t *result) {
    unsigned count = 0;
    memset(result, 0, RUNIN_RESULT_LENGTH * sizeof *result);
    for (unsigned v = 0; v < j->steps; v++) {
        uint16_t *row = result + RUNIN_ROW_LENGTH * v;
        row[0] = j->prefixes[v];
        if (!is_whole(j, v)) continue;
        for (unsigned k = 0; k <= j->beads; k++) row[1 + k] = j->pivots[k][v];
        count++;
    }
    return count;
}

uint64_t same_judge(const uint16_t *pattern, size_t pattern_len, const uint16_t *log, size_t log_len,
                    uint16_t *result, size_t result_len, uint16_t *work, size_t work_len) {
    unsigned number = buffers_refused(pattern, pattern_len, log, log_len, result_len, work_len);
    if (number) return answer(number, 0, 0);
    struct judging j = {.pattern = pattern, .log = log, .work = work, .beads = pattern[1], .steps = log[0]};
    for (unsigned k = 0; k < j.beads; k++) j.hopes[k] = hopeful(pattern, k);
    last_links(&j);
    mark_prefixes(&j);
    walk_back(&j);
    unsigned count = write_rows(&j, result);
    memset(work, 0, RUNIN_WORK_LENGTH * sizeof *work);
    return answer(0, 0, count);
}
