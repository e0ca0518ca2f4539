/* The inputs: texts of a pattern and a log, the same at each run.
 *
 * The shapes are chosen for what they cost. Whether a pattern holds decides how much walking back there is, so the full-size patterns are
 * made to hold at nearly every step. Where pivots are late, the passes from each target go all the way and the searches are long. */
#include "bench.h"

#include <stdio.h>
#include <string.h>

enum links { RANDOM_LINKS, NEAR_LINKS, BOARD_LINKS, RACK_LINKS };
enum labelling { ALL_LABELS, SOME_LABELS, NO_LABELS, RUN_IN_LABELS, RACK_LABELS };
enum tables { MIXED_TABLES, LATE_TABLES, RUN_IN_TABLES, RACK_TABLES, ANY_TABLES };

struct shape {
    const char *name;
    int steps, links, labels, beads, states, first_rule;
    enum links kind;
    enum labelling labelling;
    enum tables tables;
};

static const struct shape shapes[SHAPES] = {
    {"typical", 200, 0, 3, 4, 3, SOME, BOARD_LINKS, RUN_IN_LABELS, RUN_IN_TABLES},
    {"dense, all labels", 1024, 4096, 16, 8, 16, SOME, RANDOM_LINKS, ALL_LABELS, MIXED_TABLES},
    {"dense, near links", 1024, 4096, 16, 8, 16, SOME, NEAR_LINKS, SOME_LABELS, MIXED_TABLES},
    {"late pivots, ALL first", 1024, 4096, 16, 8, 16, ALL, NEAR_LINKS, SOME_LABELS, LATE_TABLES},
    {"late pivots, SOME first", 1024, 4096, 16, 8, 16, SOME, NEAR_LINKS, SOME_LABELS, LATE_TABLES},
    {"bare steps", 1024, 4096, 16, 8, 16, SOME, RANDOM_LINKS, NO_LABELS, MIXED_TABLES},
    {"chain", 1024, 1023, 16, 8, 16, SOME, NEAR_LINKS, SOME_LABELS, MIXED_TABLES},
    {"typical, 1,024 steps", 1024, 0, 3, 4, 3, SOME, BOARD_LINKS, RUN_IN_LABELS, RUN_IN_TABLES},
    {"rack", 1024, 0, 4, 3, 4, SOME, RACK_LINKS, RACK_LABELS, RACK_TABLES},
};

/* A number below the limit (xorshift). */
uint64_t draw(uint64_t *seed, uint64_t below) {
    uint64_t x = *seed;
    x ^= x << 13;
    x ^= x >> 7;
    x ^= x << 17;
    *seed = x;
    return (x >> 11) % below;
}

/* Half of the states can be reached from state 0, and all of these are final: an ALL holds wherever a route leads. The other half is not
 * final, so that the second pass has something to do. A SOME goes anywhere. */
static unsigned mixed_next(int rule, int states, int state, uint64_t *seed) {
    int half = states / 2;
    if (rule == SOME) return 1u << draw(seed, states) | 1u << draw(seed, states);
    if (state < half) return 1u << draw(seed, half);
    return 1u << draw(seed, states);
}

static int mixed_final(int rule, int states, int state) {
    return rule == SOME ? state % 3 == 0 : state < states / 2;
}

/* Words of exactly one letter: only a direct link serves, yet the sets of the pass never run empty. The states past 1 see to that. */
static unsigned late_next(int rule, int states, int state, int label) {
    unsigned all = (1u << states) - 1;
    if (state == 0) return 1u << 1;
    if (rule == SOME) return state == 1 ? 0 : all & ~1u;
    if (state == states - 1) return label % 2 ? 1u << (states - 1) : 1u;
    return 1u << (state + 1 < states - 1 ? state + 1 : state);
}

static int late_final(int state) {
    return state == 1;
}

/* Labels vac, hot, vent. SOME: vac is read, and after it vac or hot at the end. ALL: no vent, but for the last ALL, which asks for none
 * after hot. */
static unsigned run_in_next(int bead, int rule, int state, int label) {
    static const unsigned some[3][3] = {{3, 1, 1}, {6, 4, 1}, {4, 4, 0}};
    static const unsigned none[3][3] = {{1, 1, 2}, {2, 2, 2}, {4, 4, 4}};
    static const unsigned late[3][3] = {{1, 2, 1}, {2, 2, 4}, {4, 4, 4}};
    if (rule == SOME) return some[state][label];
    return bead < 3 ? none[state][label] : late[state][label];
}

static int run_in_final(int bead, int rule, int state) {
    if (rule == SOME) return state > 0;
    return bead < 3 ? state == 0 : state < 2;
}

/* Labels vac, hot, scan, vent. SOME: vac and later hot is read, and no vent after them but for a new round. ALL: no vent between hot and the
 * scan that follows it. SOME: hot and later scan is read, and no vent at all. */
static unsigned rack_next(int bead, int state, int label) {
    static const unsigned next[3][4][4] = {
        {{2, 1, 1, 1}, {2, 4, 2, 1}, {4, 4, 4, 8}, {2, 8, 8, 8}},
        {{1, 2, 1, 1}, {2, 2, 4, 8}, {4, 2, 4, 1}, {8, 8, 8, 8}},
        {{1, 2, 1, 8}, {2, 2, 4, 8}, {4, 4, 4, 8}, {8, 8, 8, 8}},
    };
    return next[bead][state][label];
}

static int rack_final(int rule, int state) {
    return rule == SOME ? state == 2 : state < 3;
}

/* Anything that is accepted: some routes of an ALL pass, some do not, and a SOME has dead ends. */
static unsigned any_next(int rule, int states, uint64_t *seed) {
    if (rule == SOME && draw(seed, 4) == 0) return 0;
    return 1u << draw(seed, states);
}

static unsigned next_set(enum tables tables, const struct shape *s, int bead, int rule, int state, int label, uint64_t *seed) {
    switch (tables) {
    case MIXED_TABLES: return mixed_next(rule, s->states, state, seed);
    case LATE_TABLES: return late_next(rule, s->states, state, label);
    case RUN_IN_TABLES: return run_in_next(bead, rule, state, label);
    case RACK_TABLES: return rack_next(bead, state, label);
    default: return any_next(rule, s->states, seed);
    }
}

static int is_final(enum tables tables, const struct shape *s, int bead, int rule, int state, uint64_t *seed) {
    switch (tables) {
    case MIXED_TABLES: return mixed_final(rule, s->states, state);
    case LATE_TABLES: return late_final(state);
    case RUN_IN_TABLES: return run_in_final(bead, rule, state);
    case RACK_TABLES: return rack_final(rule, state);
    default: return draw(seed, 4) > 0;
    }
}

static size_t write_pattern(const struct shape *s, uint64_t *seed, char *text, size_t room) {
    size_t n = snprintf(text, room, "bead rule state final");
    for (int a = 0; a < s->labels; a++) n += snprintf(text + n, room - n, " label%d", a);
    n += snprintf(text + n, room - n, "\n");
    for (int bead = 0; bead < s->beads; bead++) {
        int rule = (bead % 2 == 0) == (s->first_rule == SOME) ? SOME : ALL;
        /* The first bead has to reach far from step 0, or nothing holds. */
        enum tables tables = s->tables == LATE_TABLES && bead == 0 ? MIXED_TABLES : s->tables;
        for (int q = 0; q < s->states; q++) {
            int final = is_final(tables, s, bead, rule, q, seed);
            n += snprintf(text + n, room - n, "%d %s %d %d", bead + 1, rule == SOME ? "SOME" : "ALL", q, final);
            for (int a = 0; a < s->labels; a++) n += snprintf(text + n, room - n, " %u", next_set(tables, s, bead, rule, q, a, seed));
            n += snprintf(text + n, room - n, "\n");
        }
    }
    return n;
}

/* The predecessors of step v, rising. */
static int random_links(int v, int count, int *preds, uint64_t *seed) {
    for (int have = 0; have < count;) {
        int u = draw(seed, v), at = 0;
        while (at < have && preds[at] < u) at++;
        if (at < have && preds[at] == u) continue;
        memmove(preds + at + 1, preds + at, (have - at) * sizeof *preds);
        preds[at] = u;
        have++;
    }
    return count;
}

static int near_links(int v, int count, int *preds) {
    for (int i = 0; i < count; i++) preds[i] = v - count + i;
    return count;
}

/* Three boards: the step before on the same board, and by times a message from the step before. */
static int board_links(int v, int *preds, uint64_t *seed) {
    int own = v > 3 ? v - 3 : 0, count = 0;
    preds[count++] = own;
    if (own < v - 1 && draw(seed, 3) == 0) preds[count++] = v - 1;
    return count;
}

/* One board: a chain, and a side branch of one step at every tenth, hung on the step before it, which the chain does not go through. Every
 * second one joins again four steps later. */
static int rack_links(int v, int *preds) {
    enum { EVERY = 10, SIDE = 5, JOIN = 9 };
    int count = 0;
    if (v % (2 * EVERY) == JOIN) preds[count++] = v - JOIN + SIDE;
    preds[count++] = v % EVERY == SIDE + 1 ? v - 2 : v - 1;
    return count;
}

/* Mostly one label, by times two or none, vent seldom. */
static unsigned rack_labels(uint64_t *seed) {
    enum { VENT = 8 };
    if (draw(seed, 60) == 0) return VENT;
    if (draw(seed, 6) == 0) return 0;
    unsigned one = 1u << draw(seed, 3);
    return draw(seed, 12) == 0 ? one | 1u << draw(seed, 3) : one;
}

static unsigned label_set(const struct shape *s, uint64_t *seed) {
    if (s->labelling == ALL_LABELS) return (1u << s->labels) - 1;
    if (s->labelling == NO_LABELS) return 0;
    if (s->labelling == RACK_LABELS) return rack_labels(seed);
    if (s->labelling == SOME_LABELS) return 1u << draw(seed, s->labels) | 1u << draw(seed, s->labels) | 1u << draw(seed, s->labels);
    /* Vac and hot often, no label by times, vent seldom. */
    if (draw(seed, 60) == 0) return 4;
    return draw(seed, 4);
}

static size_t write_log(const struct shape *s, uint64_t *seed, char *text, size_t room) {
    size_t n = snprintf(text, room, "vertex board labels preds\n0 0 0 -\n");
    int left = s->links;
    for (int v = 1; v < s->steps; v++) {
        int preds[9], steps = s->steps - v, count = (left + steps - 1) / steps;
        if (count > 8) count = 8;
        if (count > v) count = v;
        if (s->kind == RANDOM_LINKS) count = random_links(v, count, preds, seed);
        if (s->kind == NEAR_LINKS) count = near_links(v, count, preds);
        if (s->kind == BOARD_LINKS) count = board_links(v, preds, seed);
        if (s->kind == RACK_LINKS) count = rack_links(v, preds);
        left -= count;
        n += snprintf(text + n, room - n, "%d %d %u ", v, s->kind == RACK_LINKS ? 1 : v % 3, label_set(s, seed));
        for (int i = 0; i < count; i++) n += snprintf(text + n, room - n, i ? ",%d" : "%d", preds[i]);
        n += snprintf(text + n, room - n, "\n");
    }
    return n;
}

static void write_texts(const struct shape *s, uint64_t seed, struct input *input) {
    snprintf(input->name, sizeof input->name, "%s", s->name);
    input->pattern_len = write_pattern(s, &seed, (char *)input->pattern, sizeof input->pattern);
    input->log_len = write_log(s, &seed, (char *)input->log, sizeof input->log);
}

void make_shape(int index, struct input *input) {
    write_texts(&shapes[index], 2838 + index, input);
}

const char *shape_name(int index) {
    return shapes[index].name;
}

/* The costliest shape, at 64, 128, .., 1,024 steps; or one SOME bead, at as many. */
void make_sweep(int some_alone, int index, struct input *input) {
    static const struct shape some = {"", 0, 0, 16, 1, 16, SOME, NEAR_LINKS, SOME_LABELS, MIXED_TABLES};
    struct shape s = some_alone ? some : shapes[3];
    char name[40];
    s.steps = 64 << index;
    s.links = 4 * s.steps;
    snprintf(name, sizeof name, "%d steps", s.steps);
    s.name = name;
    write_texts(&s, 1996, input);
}

/* A small input of any kind. */
void make_random(uint64_t seed, struct input *input) {
    uint64_t x = seed * 0x9e3779b97f4a7c15u | 1;
    for (int i = 0; i < 8; i++) draw(&x, 2);
    struct shape s = {"random", 1 + draw(&x, 20), 0, 1 + draw(&x, 4), 1 + draw(&x, 8), 2 + draw(&x, 4), 1 + draw(&x, 2),
                      draw(&x, 3), draw(&x, 4), draw(&x, 2)};
    s.links = s.steps * (1 + draw(&x, 3));
    if (s.labelling == RUN_IN_LABELS) s.labels = 3;
    write_texts(&s, x, input);
}

/* A longer one, with any tables: more starting steps than go together in a pass. */
void make_long(uint64_t seed, struct input *input) {
    uint64_t x = seed * 0x9e3779b97f4a7c15u | 1;
    for (int i = 0; i < 8; i++) draw(&x, 2);
    struct shape s = {"random, long", 100 + draw(&x, 200), 0, 1 + draw(&x, 16), 1 + draw(&x, 8), 1 + draw(&x, 16), 1 + draw(&x, 2),
                      draw(&x, 4), draw(&x, 2) ? SOME_LABELS : RUN_IN_LABELS, ANY_TABLES};
    s.links = s.steps * (1 + draw(&x, 3));
    if (s.labelling == RUN_IN_LABELS) s.labels = 3;
    write_texts(&s, x, input);
}
