/* What the files of the benchmark share: the five jobs under other names, the inputs, the measuring. */
#ifndef BENCH_H
#define BENCH_H

#include "../include/runin.h"

enum {
    MOST_STEPS = RUNIN_MOST_STEPS, MOST_LINKS = RUNIN_MOST_LINKS, MOST_BEADS = RUNIN_MOST_BEADS, MOST_STATES = RUNIN_MOST_STATES,
    MOST_LABELS = RUNIN_MOST_LABELS, MOST_LINE = RUNIN_MOST_LINE
};

/* Where the parts of the pattern buffer and of the log buffer begin. */
enum { RULES = RUNIN_PATTERN_RULE(0), STATE_COUNTS = RUNIN_PATTERN_STATES(0), FINALS = RUNIN_PATTERN_FINAL(0), NEXTS = RUNIN_PATTERN_NEXT(0, 0, 0) };
enum { LABELS = RUNIN_LOG_LABELS(0), BOARDS = RUNIN_LOG_BOARD(0), BEGINS = RUNIN_LOG_BEGIN(0), LINKS = RUNIN_LOG_LINK(0) };
enum { SOME = RUNIN_SOME, ALL = RUNIN_ALL };

typedef uint64_t pattern_reader(const uint8_t *text, size_t text_len, uint16_t *pattern, size_t pattern_len);
typedef uint64_t log_reader(const uint8_t *text, size_t text_len, uint16_t label_count, uint16_t *log, size_t log_len);
typedef uint64_t judge(const uint16_t *pattern, size_t pattern_len, const uint16_t *log, size_t log_len,
                       uint16_t *result, size_t result_len, uint16_t *work, size_t work_len);

typedef uint64_t pattern_writer(const uint16_t *pattern, size_t pattern_len, const uint8_t *header, size_t header_len,
                                uint8_t *text, size_t text_len);
typedef uint64_t log_writer(const uint16_t *log, size_t log_len, uint16_t label_count, uint8_t *text, size_t text_len);

/* reader.c: the plain readers, and how many labels a header text names that is one line, its only newline last (0 for any other text). */
pattern_reader plain_read_pattern;
log_reader plain_read_log;
unsigned header_labels(const uint8_t *header, size_t header_len);

/* places.c: where a header text is at fault that a pattern's writer refuses. */
unsigned header_place(const uint8_t *header, size_t header_len);

/* writer.c: the plain writers. */
pattern_writer plain_write_pattern;
log_writer plain_write_log;

/* same.c: the library's algorithm, sixteen forward passes at once. rr2838.c: the procedure of RR-2838, straightforward and tuned. fastest.c: for
 * speed alone. */
judge same_judge;
judge rr2838_judge;
judge rr2838_tuned_judge;
judge fastest_judge;

/* buffers.c: whether some accepted text gives a buffer, and the host's faults, 1 to 7, for all judges above: 0 where there is none. */
int is_pattern(const uint16_t *pattern);
int is_log(const uint16_t *log, unsigned labels);
unsigned buffers_refused(const uint16_t *pattern, size_t pattern_len, const uint16_t *log, size_t log_len,
                         size_t result_len, size_t work_len);

/* An answer without a byte: accepted, or refused for no single place. */
static inline uint64_t answer(uint64_t number, uint64_t line, uint64_t count) {
    return number << 32 | line << 16 | count;
}

static inline uint64_t refusal(uint64_t number, uint64_t line, uint64_t byte) {
    return byte << 48 | answer(number, line, 0);
}

/* inputs.c: a pattern's text and a log's text. */
struct input {
    char name[40];
    size_t pattern_len, log_len;
    uint8_t pattern[RUNIN_MOST_PATTERN_TEXT], log[RUNIN_MOST_LOG_TEXT];
};

/* The FULL_SIZES shapes from FULL_SIZE on have 8 beads of 16 states, 16 labels, 1,024 steps; FULL_SIZE has 4,096 links too. */
enum { TYPICAL, FULL_SIZE, FULL_SIZES = 6, LONG_TYPICAL = 7, RACK, SHAPES, SWEEP = 5 };
const char *shape_name(int index);
void make_shape(int index, struct input *input);
void make_sweep(int some_alone, int index, struct input *input);
void make_random(uint64_t seed, struct input *input);
void make_long(uint64_t seed, struct input *input);
uint64_t draw(uint64_t *seed, uint64_t below);

/* measure.c: CPU time of this process in seconds, the median, and the most stack that a call uses. */
double cpu_seconds(void);
double median(double *values, int count);
size_t peak_stack(void (*call)(void));

#endif
