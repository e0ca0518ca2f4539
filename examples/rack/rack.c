/* Judges a log by a pattern and prints a line a step, or why it is refused: rack PATTERN LOG.
 * Exit status: 0 accepted, 1 refused, 2 wrong usage, or the rows could not be printed. */
#include "host.h"

/* One byte more than the limits, so that an oversize file is seen as one. */
static uint8_t pattern_text[RUNIN_MOST_PATTERN_TEXT + 1], log_text[RUNIN_MOST_LOG_TEXT + 1];
static uint16_t pattern_buffer[RUNIN_PATTERN_LENGTH], log_buffer[RUNIN_LOG_LENGTH];
static uint16_t result[RUNIN_RESULT_LENGTH], work[RUNIN_WORK_LENGTH];

/* The rows, as the program `judge` prints them. */
static void print_rows(uint32_t steps)
{
    puts("vertex prefixes pivots");
    for (uint32_t step = 0; step < steps; step++) {
        printf("%u %u", step, result[RUNIN_RESULT_BEGINNINGS(step)]);
        if (!runin_holds(pattern_buffer, result, step))
            printf(" -");
        else
            for (uint32_t k = 0; k <= pattern_buffer[RUNIN_PATTERN_BEADS]; k++)
                printf("%c%u", k ? ',' : ' ', result[RUNIN_RESULT_PIVOT(step, k)]);
        puts("");
    }
}

int main(int argc, char **argv)
{
    if (argc != 3) {
        fputs("usage: rack PATTERN LOG\n", stderr);
        return 2;
    }
    size_t length = load(argv[1], pattern_text, sizeof pattern_text);
    if (refused(runin_read_pattern(pattern_text, length, pattern_buffer, RUNIN_PATTERN_LENGTH), pattern_text, length, stdout))
        return 1;
    length = load(argv[2], log_text, sizeof log_text);
    uint64_t steps = runin_read_log(log_text, length, pattern_buffer[RUNIN_PATTERN_LABELS], log_buffer, RUNIN_LOG_LENGTH);
    if (refused(steps, log_text, length, stdout))
        return 1;
    uint64_t held = runin_judge(pattern_buffer, RUNIN_PATTERN_LENGTH, log_buffer, RUNIN_LOG_LENGTH,
                                result, RUNIN_RESULT_LENGTH, work, RUNIN_WORK_LENGTH);
    if (refused(held, NULL, 0, stdout))
        return 1;
    print_rows(RUNIN_COUNT(steps));
    return fflush(stdout) || ferror(stdout) ? 2 : 0;
}
