/* The judge for speed alone: the fastest in C that is known, with no regard to document 01's forms. It has 160 KiB of its own.
 *
 * Bead by bead it notes for each step the smallest starting step from which the bead holds there; a starting step is one at which the
 * earlier beads hold. SOME takes one pass over the log, ALL one for every 64 starting steps. The walk back only looks up what is noted. */
#include "bench.h"

#include <string.h>

enum { NONE = 0xffff, TOGETHER = 64, FOURS = MOST_LABELS / 4 };

/* The states that have this smallest starting step: some reading from there ends in them, and none from a smaller one. */
struct reached {
    uint16_t start, states;
};

/* A bit stands for one of 64 starting steps. `of` has, for each of the states, those with a reading that ends in it. One with a reading
 * that ends in a hopeless state is lost: the bead can't hold from there any more, here or further on. */
struct bits {
    const uint64_t *of;
    unsigned states;
    uint64_t lost;
};

struct bead {
    const uint16_t *log;
    unsigned steps, states, final, hopeless;
    uint16_t *noted;
};

/* The starting steps of a bead, rising, ended by NONE. */
static uint16_t starts[MOST_STEPS + 1];

/* For each state, each four labels and each set of these the union of the next sets. */
static uint16_t unions[MOST_STATES][FOURS][16];

/* The last step with a link from this one, or 0. */
static uint16_t last_link[MOST_STEPS];

/* For each bead and step the smallest starting step from which the bead holds there, or NONE. */
static uint16_t noted[MOST_BEADS][MOST_STEPS];

/* What a pass keeps of each step. SOME: its states by rising starting step, ended by NONE. ALL: the bits of each of the bead's states, rows
 * as long as the bead has states, and room to clear past the last. */
static union {
    struct reached some[MOST_STEPS][MOST_STATES + 1];
    uint64_t all[MOST_STEPS * MOST_STATES + MOST_STATES];
} rows;

/* The states for which the row of a step has something, and the bits that are lost there. */
static uint16_t live[MOST_STEPS];
static uint64_t lost[MOST_STEPS];

/* The states that entering a step with these labels leads to. */
static inline unsigned enter(unsigned state, unsigned labels) {
    const uint16_t(*fours)[16] = unions[state];
    return fours[0][labels & 15] | fours[1][labels >> 4 & 15] | fours[2][labels >> 8 & 15] | fours[3][labels >> 12];
}

static inline unsigned enter_set(unsigned set, unsigned labels) {
    unsigned to = 0;
    for (; set; set &= set - 1) to |= enter(__builtin_ctz(set), labels);
    return to;
}

/* Of four labels that the pattern lacks only the empty set is ever asked for. */
static void fill_unions(const uint16_t *nexts, unsigned states, unsigned labels) {
    for (unsigned q = 0; q < states; q++) {
        for (unsigned four = 0; four < FOURS; four++) {
            uint16_t *sets = unions[q][four];
            sets[0] = 0;
            for (unsigned a = 0; a < 4 && 4 * four < labels; a++) {
                for (unsigned i = 0; i < 1u << a; i++) sets[(1u << a) + i] = sets[i] | nexts[16 * q + 4 * four + a];
            }
        }
    }
}

/* The states from which no word leads to a final one. */
static unsigned hopeless_states(unsigned states, unsigned final, unsigned labels) {
    unsigned every = (1u << labels) - 1, hopeful = final, before;
    do {
        before = hopeful;
        for (unsigned q = 0; q < states; q++) {
            if (enter(q, every) & hopeful) hopeful |= 1u << q;
        }
    } while (hopeful != before);
    return ((1u << states) - 1) & ~hopeful;
}

/* SOME: merges what the steps before x hand on, smallest starting step first, and enters x with it. A state counts with the first starting
 * step that brings it, so each goes through the tables once. `done` has the states that x needs no more. Returns the row's end. */
static struct reached *hand_on(const struct bead *b, unsigned x, unsigned *done) {
    const struct reached *from[8];
    struct reached *to = rows.some[x];
    unsigned begin = b->log[BEGINS + x], count = b->log[BEGINS + x + 1] - begin, labels = b->log[LABELS + x], left = 0;
    for (unsigned i = 0; i < count; i++) {
        unsigned p = b->log[LINKS + begin + i];
        from[i] = rows.some[p];
        left |= live[p];
    }
    while (left) {
        unsigned start = NONE, states = 0;
        for (unsigned i = 0; i < count; i++) start = from[i]->start < start ? from[i]->start : start;
        for (unsigned i = 0; i < count; i++) {
            if (from[i]->start == start) states |= from[i]++->states;
        }
        states &= left;
        left &= ~states;
        states = (labels ? enter_set(states, labels) : states) & ~*done;
        *done |= states;
        if (states) *to++ = (struct reached){start, states};
    }
    return to;
}

/* Hopeless states are done from the start: no step further on needs them. */
static void pass_some(const struct bead *b) {
    const uint16_t *start = starts;
    for (unsigned x = 0; x < b->steps; x++) {
        unsigned done = b->hopeless;
        struct reached *to = hand_on(b, x, &done);
        if (*start == x) {
            if (!(done & 1)) *to++ = (struct reached){x, 1};
            done |= 1;
            start++;
        }
        to->start = NONE;
        live[x] = done & ~b->hopeless;
        const struct reached *r = rows.some[x];
        while (r < to && !(r->states & b->final)) r++;
        b->noted[x] = r->start;
    }
}

/* In halves: those the compiler clears by a few vector stores, the whole by a string instruction that takes longer. More is cleared than a
 * row has, as nothing is kept past the row at hand. */
static inline void clear(const struct bead *b, uint64_t *room) {
    enum { HALF = MOST_STATES / 2 };
    memset(room, 0, HALF * sizeof *room);
    if (b->states > HALF) memset(room + HALF, 0, HALF * sizeof *room);
}

/* ALL: the bits that the steps from `first` on hand on to x. Those of a single step are left where they are, those of several put together
 * in `room`, state by state. */
static inline struct bits gather(const struct bead *b, unsigned x, unsigned first, uint64_t *room) {
    const uint16_t *link = b->log + LINKS + b->log[BEGINS + x], *end = b->log + LINKS + b->log[BEGINS + x + 1];
    while (link < end && *link < first) link++;
    if (link == end) return (struct bits){room, 0, 0};
    if (link + 1 == end) return (struct bits){rows.all + *link * b->states, live[*link], lost[*link]};
    struct bits all = {room, 0, 0};
    const uint64_t *there[8];
    unsigned count = 0;
    for (; link < end; link++) {
        if (live[*link]) there[count++] = rows.all + *link * b->states;
        all.states |= live[*link];
        all.lost |= lost[*link];
    }
    for (unsigned qs = all.states; qs; qs &= qs - 1) {
        unsigned q = __builtin_ctz(qs);
        uint64_t bits = there[0][q];
        for (unsigned i = 1; i < count; i++) bits |= there[i][q];
        room[q] = bits;
    }
    return all;
}

/* Enters a step with labels. Hopeless states get no bits: they make them lost. */
static inline struct bits move(const struct bead *b, unsigned labels, struct bits from, uint64_t *room) {
    struct bits to = {room, 0, from.lost};
    clear(b, room);
    for (unsigned qs = from.states; qs; qs &= qs - 1) {
        unsigned q = __builtin_ctz(qs), next = enter(q, labels);
        uint64_t moved = from.of[q];
        if (next & b->hopeless) to.lost |= moved;
        next &= ~b->hopeless;
        to.states |= next;
        for (; next; next &= next - 1) room[__builtin_ctz(next)] |= moved;
    }
    return to;
}

/* Keeps at x the bits that are not lost. Returns those for which the bead holds there: in a final state and in no other. */
static inline uint64_t keep(const struct bead *b, unsigned x, struct bits bits) {
    uint64_t yes = 0, no = 0, *here = rows.all + x * b->states;
    unsigned kept = 0;
    clear(b, here);
    for (unsigned qs = bits.states; qs; qs &= qs - 1) {
        unsigned q = __builtin_ctz(qs);
        uint64_t some = bits.of[q] & ~bits.lost;
        here[q] = some;
        kept |= (unsigned)(some != 0) << q;
        if (b->final >> q & 1) yes |= some;
        else no |= some;
    }
    live[x] = kept;
    lost[x] = bits.lost;
    return yes & ~no;
}

/* Starts a bit at x, in state 0. Returns it if the bead holds there by the empty word. */
static inline uint64_t start_bit(const struct bead *b, unsigned x, uint64_t bit) {
    rows.all[x * b->states] |= bit;
    live[x] |= 1;
    return b->final & 1 ? bit : 0;
}

/* One pass for at most 64 starting steps, below `steps`. Past `reach` no step has a link from one with bits that are not lost: there the
 * pass goes on at the next starting step, for which nothing before matters, or ends. */
static void pass_all(const struct bead *b, const uint16_t *batch, unsigned count, unsigned steps) {
    unsigned first = batch[0], reach = first, begun = 0;
    for (unsigned x = first; x < steps; x++) {
        if (x > reach) {
            if (begun == count) break;
            x = first = reach = batch[begun];
            if (x >= steps) break;
        }
        uint64_t before[MOST_STATES], after[MOST_STATES];
        unsigned labels = b->log[LABELS + x];
        struct bits bits = gather(b, x, first, before);
        if (labels && bits.states) bits = move(b, labels, bits, after);
        uint64_t holds = keep(b, x, bits);
        if (begun < count && batch[begun] == x) holds |= start_bit(b, x, (uint64_t)1 << begun++);
        if (holds && b->noted[x] == NONE) b->noted[x] = batch[__builtin_ctzll(holds)];
        if (live[x] && last_link[x] > reach) reach = last_link[x];
    }
}

/* Steps from `steps` on all have the bead noted, by a smaller starting step than any to come. */
static void passes_all(const struct bead *b, unsigned count) {
    unsigned steps = b->steps;
    memset(b->noted, 0xff, b->steps * sizeof *b->noted);
    if (b->hopeless & 1) return;
    for (unsigned i = 0; i < count; i += TOGETHER) {
        while (steps > starts[i] && b->noted[steps - 1] != NONE) steps--;
        if (steps <= starts[i]) return;
        pass_all(b, starts + i, count - i < TOGETHER ? count - i : TOGETHER, steps);
    }
}

static void find_last_links(const uint16_t *log) {
    memset(last_link, 0, log[0] * sizeof *last_link);
    for (unsigned v = 1; v < log[0]; v++) {
        for (unsigned i = log[BEGINS + v]; i < log[BEGINS + v + 1]; i++) last_link[log[LINKS + i]] = v;
    }
}

/* The first bead starts at step 0, each other one where the bead before it is noted. */
static unsigned find_starts(unsigned k, unsigned steps) {
    unsigned count = 0;
    for (unsigned v = 0; v < (k ? steps : 1); v++) {
        starts[count] = v;
        count += k == 0 || noted[k - 1][v] != NONE;
    }
    starts[count] = NONE;
    return count;
}

static void note_bead(const uint16_t *pattern, const uint16_t *log, unsigned k) {
    struct bead b = {.log = log, .steps = log[0], .noted = noted[k], .states = pattern[STATE_COUNTS + k], .final = pattern[FINALS + k]};
    unsigned count = find_starts(k, b.steps);
    fill_unions(pattern + NEXTS + 256 * k, b.states, pattern[0]);
    b.hopeless = hopeless_states(b.states, b.final, pattern[0]);
    if (pattern[RULES + k] == ALL) passes_all(&b, count);
    else pass_some(&b);
}

static unsigned write_rows(unsigned beads, unsigned steps, uint16_t *result) {
    unsigned count = 0;
    memset(result, 0, RUNIN_RESULT_LENGTH * sizeof *result);
    for (unsigned v = 0; v < steps; v++) {
        uint16_t *row = result + RUNIN_ROW_LENGTH * v;
        for (unsigned k = 0; k < beads; k++) row[0] |= (noted[k][v] != NONE) << k;
        if (!(row[0] >> (beads - 1))) continue;
        row[1 + beads] = v;
        for (unsigned k = beads; k-- > 0;) row[1 + k] = noted[k][row[2 + k]];
        count++;
    }
    return count;
}

uint64_t fastest_judge(const uint16_t *pattern, size_t pattern_len, const uint16_t *log, size_t log_len,
                       uint16_t *result, size_t result_len, uint16_t *work, size_t work_len) {
    unsigned number = buffers_refused(pattern, pattern_len, log, log_len, result_len, work_len);
    if (number) return answer(number, 0, 0);
    find_last_links(log);
    for (unsigned k = 0; k < pattern[1]; k++) note_bead(pattern, log, k);
    unsigned count = write_rows(pattern[1], log[0], result);
    memset(work, 0, RUNIN_WORK_LENGTH * sizeof *work);
    return answer(0, 0, count);
}
