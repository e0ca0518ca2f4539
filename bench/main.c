/* The benchmark: the library against the same jobs written in C. First all answers and buffers are compared, then times and stacks are
 * measured and printed with the library's ratios to the other makers.
 *
 * `bench` does all. `bench SHAPE JOB WHO` makes one call only, for bench/count. */
#include "bench.h"

#include <math.h>
#include <stdio.h>
#include <stdlib.h>
#include <string.h>

/* The library; RR-2838's procedure (a) and its tuned form (a'); the library's algorithm, the plain readers and writers (b); the judge for
 * speed alone (c). */
enum { LIBRARY, PAPER, TUNED, SAME, FASTEST, MAKERS };
static const char *const makers[MAKERS] = {"library", "(a)", "(a')", "(b)", "(c)"};
enum { READ_PATTERN, READ_LOG, JUDGE, WRITE_PATTERN, WRITE_LOG, JOBS };
static const char *const jobs[JOBS] = {"read pattern", "read log", "judge", "write pattern", "write log"};

static pattern_reader *const pattern_readers[MAKERS] = {runin_read_pattern, 0, 0, plain_read_pattern, 0};
static log_reader *const log_readers[MAKERS] = {runin_read_log, 0, 0, plain_read_log, 0};
static judge *const judges[MAKERS] = {runin_judge, rr2838_judge, rr2838_tuned_judge, same_judge, fastest_judge};
static pattern_writer *const pattern_writers[MAKERS] = {runin_write_pattern, 0, 0, plain_write_pattern, 0};
static log_writer *const log_writers[MAKERS] = {runin_write_log, 0, 0, plain_write_log, 0};

/* Buffers with some numbers past their documented lengths, which no call may touch. Any text that is written fits. */
enum { PAST = 16, MOST_TEXT = 65536 };
struct buffers {
    uint16_t pattern[RUNIN_PATTERN_LENGTH + PAST], log[RUNIN_LOG_LENGTH + PAST];
    uint16_t result[RUNIN_RESULT_LENGTH + PAST], work[RUNIN_WORK_LENGTH + PAST];
    uint8_t text[MOST_TEXT + PAST];
    uint64_t answers[JOBS];
};
static struct buffers rooms[MAKERS];
static struct input input;

/* What the writers are handed besides the buffers: a header text and the length of the text buffer. */
static uint8_t header[MOST_LINE + 2];
static size_t header_len, text_len;

static int has(int maker, int job) {
    return job == JUDGE || maker == LIBRARY || maker == SAME;
}

/* The header text of the input's pattern, newline included, and a text buffer in which any text fits. */
static void ready_to_write(void) {
    const uint8_t *end = memchr(input.pattern, '\n', input.pattern_len);
    header_len = end ? (size_t)(end - input.pattern) + 1 : input.pattern_len;
    if (header_len > sizeof header) header_len = sizeof header;
    memcpy(header, input.pattern, header_len);
    text_len = MOST_TEXT;
}

static void call(int maker, int job) {
    struct buffers *b = &rooms[maker];
    if (job == READ_PATTERN) {
        b->answers[job] = pattern_readers[maker](input.pattern, input.pattern_len, b->pattern, sizeof b->pattern / 2);
    } else if (job == READ_LOG) {
        b->answers[job] = log_readers[maker](input.log, input.log_len, b->pattern[0], b->log, sizeof b->log / 2);
    } else if (job == WRITE_PATTERN) {
        b->answers[job] = pattern_writers[maker](b->pattern, sizeof b->pattern / 2, header, header_len, b->text, text_len);
    } else if (job == WRITE_LOG) {
        b->answers[job] = log_writers[maker](b->log, sizeof b->log / 2, b->pattern[0], b->text, text_len);
    } else {
        b->answers[job] = judges[maker](b->pattern, sizeof b->pattern / 2, b->log, sizeof b->log / 2,
                                        b->result, sizeof b->result / 2, b->work, sizeof b->work / 2);
    }
}

/* Comparing. */

static long compared, by_number[32], placed, held;

static void must_be_equal(int job) {
    for (int maker = PAPER; maker < MAKERS; maker++) {
        if (memcmp(&rooms[LIBRARY], &rooms[maker], sizeof rooms[maker]) != 0) {
            printf("%s differs: %s; library %llx, %s %llx\n", jobs[job], input.name, (unsigned long long)rooms[LIBRARY].answers[job],
                   makers[maker], (unsigned long long)rooms[maker].answers[job]);
            exit(1);
        }
    }
    compared++;
    uint64_t answer = rooms[LIBRARY].answers[job];
    by_number[RUNIN_NUMBER(answer)]++;
    placed += RUNIN_BYTE(answer) != 0;
    if (job == JUDGE) held += RUNIN_COUNT(answer);
}

static void compare_job(int job) {
    for (int maker = 0; maker < MAKERS; maker++) {
        if (has(maker, job)) call(maker, job);
    }
    /* Judges without readers and writers of their own get what the plain ones read. */
    if (job != JUDGE) rooms[PAPER] = rooms[TUNED] = rooms[FASTEST] = rooms[SAME];
    must_be_equal(job);
}

/* The five jobs on the input, from buffers that hold anything. */
static void compare_input(void) {
    for (size_t i = 0; i < sizeof rooms[0]; i++) ((uint8_t *)&rooms[0])[i] = i * 37 + 11;
    for (int maker = 1; maker < MAKERS; maker++) rooms[maker] = rooms[0];
    ready_to_write();
    for (int job = 0; job < JOBS; job++) compare_job(job);
}

/* Changes some bytes of a text, most of them to ones that mean something. */
static void damage(uint8_t *text, size_t *len, uint64_t *seed) {
    static const char bytes[] = "0123456789 ,-\nSA\r~\x7f";
    for (int i = draw(seed, 3); i > 0; i--) text[draw(seed, *len)] = bytes[draw(seed, sizeof bytes - 1)];
    if (draw(seed, 8) == 0) *len = draw(seed, *len + 1);
}

/* Both writers again, into text buffers just long enough and one byte short; then with a damaged header text. */
static void compare_writes(uint64_t *seed) {
    for (int job = WRITE_PATTERN; job <= WRITE_LOG; job++) {
        text_len = MOST_TEXT;
        compare_job(job);
        text_len = RUNIN_COUNT(rooms[LIBRARY].answers[job]);
        if (text_len == 0) continue;
        compare_job(job);
        text_len--;
        compare_job(job);
    }
    if (header_len > 0) damage(header, &header_len, seed);
    compare_job(WRITE_PATTERN);
}

/* Small inputs, sound and damaged; then the judge and the writers again with one number of a buffer changed. */
static void compare_random(int count) {
    for (int i = 1; i <= count; i++) {
        uint64_t seed = i * 7919;
        make_random(i, &input);
        if (i % 4 == 1) damage(input.pattern, &input.pattern_len, &seed);
        if (i % 4 == 2) damage(input.log, &input.log_len, &seed);
        compare_input();
        if (i % 4 == 3) {
            size_t place = draw(&seed, 2) ? draw(&seed, 40) : draw(&seed, RUNIN_PATTERN_LENGTH);
            size_t other = draw(&seed, 4) * 1024 + draw(&seed, 40);
            uint16_t value = draw(&seed, 2) ? draw(&seed, 4) : draw(&seed, 65536);
            for (int maker = 0; maker < MAKERS; maker++) {
                if (i % 8 == 3) rooms[maker].pattern[place] = value;
                else rooms[maker].log[other] = value;
            }
            compare_job(JUDGE);
        }
        compare_writes(&seed);
    }
}

static void compare_long(int count) {
    for (int i = 1; i <= count; i++) {
        make_long(i, &input);
        compare_input();
    }
}

/* Measuring. */

static int stack_maker, stack_job;
static void no_call(void) {}
static void stack_call(void) { call(stack_maker, stack_job); }

static size_t stack_of(int maker, int job) {
    stack_maker = maker;
    stack_job = job;
    return peak_stack(stack_call) - peak_stack(no_call);
}

/* How many calls of a maker take a millisecond or more. They differ much between makers. */
static int batch_of(int maker, int job) {
    for (int batch = 1;; batch *= 2) {
        double begin = cpu_seconds();
        for (int i = 0; i < batch; i++) call(maker, job);
        if (batch >= 4096 || cpu_seconds() - begin >= 1e-3) return batch;
    }
}

/* The median time of a call in seconds, for each maker: rounds in turn, so that a disturbance meets all of them. */
static void time_job(int job, double budget, double *seconds) {
    enum { MOST = 25, FEWEST = 5 };
    double samples[MAKERS][MOST];
    int batches[MAKERS], round = 0;
    for (int maker = 0; maker < MAKERS; maker++) batches[maker] = has(maker, job) ? batch_of(maker, job) : 0;
    for (double begin = cpu_seconds(); round < MOST && (round < FEWEST || cpu_seconds() - begin < budget); round++) {
        for (int maker = 0; maker < MAKERS; maker++) {
            if (!has(maker, job)) continue;
            double from = cpu_seconds();
            for (int i = 0; i < batches[maker]; i++) call(maker, job);
            samples[maker][round] = (cpu_seconds() - from) / batches[maker];
        }
    }
    for (int maker = 0; maker < MAKERS; maker++) seconds[maker] = has(maker, job) ? median(samples[maker], round) : 0;
}

/* What the aims are about: times of a call on each shape and, judging, in each sweep. */
static double shape_times[SHAPES][JOBS][MAKERS], sweep_times[2][SWEEP][MAKERS];
static size_t most_stack[JOBS];

static void table_head(void) {
    printf("%-24s %-13s", "shape", "job");
    for (int maker = 0; maker < MAKERS; maker++) printf(" %8s us", makers[maker]);
    for (int maker = 1; maker < MAKERS; maker++) printf(" lib/%-4s", makers[maker]);
    printf(" stack: library, (a), (b), (c)\n");
}

static void print_stacks(int job) {
    for (int maker = 0; maker < MAKERS; maker++) {
        if (maker == TUNED) continue;
        if (!has(maker, job)) {
            printf(" %6s", "-");
            continue;
        }
        size_t stack = stack_of(maker, job);
        printf(" %6zu", stack);
        if (maker == LIBRARY && stack > most_stack[job]) most_stack[job] = stack;
    }
}

/* A line of the table. */
static void measure(int job, double budget, double *t) {
    time_job(job, budget, t);
    printf("%-24s %-13s", input.name, jobs[job]);
    for (int maker = 0; maker < MAKERS; maker++) {
        if (has(maker, job)) printf(" %11.1f", t[maker] * 1e6);
        else printf(" %11s", "-");
    }
    for (int maker = 1; maker < MAKERS; maker++) {
        if (has(maker, job)) printf(" %8.2f", t[LIBRARY] / t[maker]);
        else printf(" %8s", "-");
    }
    print_stacks(job);
    printf("\n");
    fflush(stdout);
}

static void measure_shapes(void) {
    table_head();
    for (int i = 0; i < SHAPES; i++) {
        make_shape(i, &input);
        compare_input();
        for (int job = READ_PATTERN; job <= JUDGE; job++) measure(job, job == JUDGE ? 4 : 0.4, shape_times[i][job]);
    }
}

static void measure_sweep(int some_alone) {
    printf("\n%s, four links a step\n", some_alone ? "The second sweep: one SOME bead of 16 states" : "The sweep: late pivots with ALL first");
    table_head();
    for (int i = 0; i < SWEEP; i++) {
        make_sweep(some_alone, i, &input);
        compare_input();
        measure(JUDGE, some_alone ? 1 : 2, sweep_times[some_alone][i]);
    }
}

/* At full size only. There is no aim. */
static void measure_writes(void) {
    make_shape(FULL_SIZE, &input);
    compare_input();
    const struct buffers *b = &rooms[LIBRARY];
    printf("\nWriting: a pattern of %u beads of %u states and %u labels, %u bytes; a log of %u steps and %u links, %u bytes\n", b->pattern[1],
           b->pattern[STATE_COUNTS], b->pattern[0], RUNIN_COUNT(b->answers[WRITE_PATTERN]), b->log[0], b->log[BEGINS + b->log[0]],
           RUNIN_COUNT(b->answers[WRITE_LOG]));
    table_head();
    for (int job = WRITE_PATTERN; job <= WRITE_LOG; job++) {
        double t[MAKERS];
        measure(job, 0.4, t);
    }
}

/* Aims. A missed one is printed, no more. */

static const char *met(int yes) {
    return yes ? "met" : "missed";
}

static double ratio(int shape, int job, int maker) {
    return shape_times[shape][job][LIBRARY] / shape_times[shape][job][maker];
}

/* The geometric mean of the library's ratios to a maker, judging, over some shapes that follow each other. */
static double mean_ratio(int first, int count, int maker) {
    double sum = 0;
    for (int i = first; i < first + count; i++) sum += log(ratio(i, JUDGE, maker));
    return exp(sum / count);
}

static void aim_everywhere(int job, int maker, double most) {
    int worst = 0;
    for (int i = 1; i < SHAPES; i++) {
        if (ratio(i, job, maker) > ratio(worst, job, maker)) worst = i;
    }
    double r = ratio(worst, job, maker);
    printf("%-13s at most %.1f times %s on every shape: worst %.2f (%s), %s\n", jobs[job], most, makers[maker], r, shape_name(worst), met(r <= most));
}

static void aim_on_shape(int shape, double most) {
    double r = ratio(shape, JUDGE, FASTEST);
    printf("%-13s at most %.1f times (c) on the shape \"%s\": %.2f, %s\n", jobs[JUDGE], most, shape_name(shape), r, met(r <= most));
}

static void aim_twice_the_steps(int some_alone, double most) {
    const double(*t)[MAKERS] = sweep_times[some_alone];
    double r = t[SWEEP - 1][LIBRARY] / t[SWEEP - 2][LIBRARY];
    printf("%-13s %d steps at most %.1f times as long as %d%s: %.2f, %s (", jobs[JUDGE], 64 << (SWEEP - 1), most, 64 << (SWEEP - 2),
           some_alone ? ", SOME alone" : "", r, met(r <= most));
    for (int maker = 1; maker < MAKERS; maker++) printf("%s%s %.2f", maker > 1 ? ", " : "", makers[maker], t[SWEEP - 1][maker] / t[SWEEP - 2][maker]);
    printf(")\n");
}

static void print_aims(void) {
    printf("\nAims\n");
    aim_everywhere(READ_PATTERN, SAME, 1.1);
    aim_everywhere(READ_LOG, SAME, 1.3);
    aim_everywhere(JUDGE, TUNED, 1);
    aim_everywhere(JUDGE, SAME, 1);
    aim_everywhere(JUDGE, FASTEST, 20);
    double mean = mean_ratio(0, SHAPES, FASTEST);
    printf("%-13s at most 10.0 times (c), geometric mean over the shapes: %.2f, %s\n", jobs[JUDGE], mean, met(mean <= 10));
    aim_on_shape(TYPICAL, 5);
    aim_on_shape(RACK, 5);
    printf("%-13s (no aim) times (c) on the shape \"%s\": %.2f\n", jobs[JUDGE], shape_name(LONG_TYPICAL), ratio(LONG_TYPICAL, JUDGE, FASTEST));
    double faster = 1 / mean_ratio(FULL_SIZE, FULL_SIZES, PAPER);
    printf("%-13s at least 12 times faster than (a), geometric mean over the full-size shapes: %.2f times, %s (than (a'): %.2f times)\n",
           jobs[JUDGE], faster, met(faster >= 12), 1 / mean_ratio(FULL_SIZE, FULL_SIZES, TUNED));
    aim_twice_the_steps(0, 4.2);
    aim_twice_the_steps(1, 2.2);
    for (int job = 0; job < JOBS; job++) {
        printf("%-13s under 49152 bytes of stack: at most %zu, %s\n", jobs[job], most_stack[job], met(most_stack[job] < 49152));
    }
}

static int once(int shape, int job, int maker) {
    if (shape < 0 || shape >= SHAPES || job < 0 || job >= JOBS || maker < 0 || maker >= MAKERS || !has(maker, job)) return 1;
    make_shape(shape, &input);
    /* Only what the job needs, so that the counted function is called once. */
    if (job != READ_PATTERN) plain_read_pattern(input.pattern, input.pattern_len, rooms[maker].pattern, RUNIN_PATTERN_LENGTH);
    if (job == JUDGE || job == WRITE_LOG) plain_read_log(input.log, input.log_len, rooms[maker].pattern[0], rooms[maker].log, RUNIN_LOG_LENGTH);
    ready_to_write();
    call(maker, job);
    return 0;
}

int main(int argc, char **argv) {
    if (argc == 4) return once(atoi(argv[1]), atoi(argv[2]), atoi(argv[3]));
    int random = 4000, random_long = 300;
    compare_random(random);
    compare_long(random_long);
    for (int i = 0; i < SHAPES; i++) {
        make_shape(i, &input);
        compare_input();
        if (RUNIN_NUMBER(rooms[LIBRARY].answers[JUDGE])) {
            printf("refused: %s\n", input.name);
            return 1;
        }
        printf("%-24s %5zu bytes of pattern, %5zu of log; the whole pattern holds at %u of %u steps\n", input.name, input.pattern_len,
               input.log_len, RUNIN_COUNT(rooms[LIBRARY].answers[JUDGE]), rooms[LIBRARY].log[0]);
    }
    printf("Equal in all answers and buffers: %ld calls, on %d random inputs, %d long ones and all shapes; the whole pattern held at %ld steps\n"
           "Answers:", compared, random, random_long, held);
    for (int number = 0; number < 32; number++) {
        if (by_number[number]) printf("%s %ld of %d", number ? "," : "", by_number[number], number);
    }
    printf("; %ld with a byte\n\n", placed);
    measure_shapes();
    measure_sweep(0);
    measure_sweep(1);
    measure_writes();
    print_aims();
    return 0;
}
