/* Each macro and call of the header with what a host may hand it: plain ints, sizes, an answer. Compiled as C11 and as C++17. */
#include "runin.h"

static uint16_t pattern[RUNIN_PATTERN_LENGTH], steps[RUNIN_LOG_LENGTH], result[RUNIN_RESULT_LENGTH], work[RUNIN_WORK_LENGTH];
static uint8_t text[RUNIN_MOST_PATTERN_TEXT > RUNIN_MOST_LOG_TEXT ? RUNIN_MOST_PATTERN_TEXT : RUNIN_MOST_LOG_TEXT];

static uint32_t parts(void)
{
    return RUNIN_NUMBER(0) | RUNIN_LINE(0) | RUNIN_BYTE(0) | RUNIN_COUNT(0);
}

static uint64_t places(int bead, short state, long label, unsigned char k)
{
    return (uint64_t)pattern[RUNIN_PATTERN_RULE(bead)] + pattern[RUNIN_PATTERN_STATES(bead)] + pattern[RUNIN_PATTERN_FINAL(bead)] +
           pattern[RUNIN_PATTERN_NEXT(bead, state, label)] + steps[RUNIN_LOG_STEPS] + steps[RUNIN_LOG_LABELS(state)] +
           steps[RUNIN_LOG_BOARD(label)] + steps[RUNIN_LOG_BEGIN(k + 1)] + steps[RUNIN_LOG_LINK(k)] +
           result[RUNIN_RESULT_BEGINNINGS(bead)] + result[RUNIN_RESULT_PIVOT(bead, k)];
}

/* Each call refuses empty buffers, and by the number that the header gives. */
static int refusals(void)
{
    uint64_t none = runin_judge(pattern, RUNIN_PATTERN_LENGTH, steps, RUNIN_LOG_LENGTH, result, RUNIN_RESULT_LENGTH, work, RUNIN_WORK_LENGTH);
    return RUNIN_NUMBER(none) == RUNIN_REFUSED_NO_PATTERN &&
           RUNIN_NUMBER(runin_read_pattern(text, 0, pattern, RUNIN_PATTERN_LENGTH)) == RUNIN_REFUSED_PATTERN_SIZE &&
           RUNIN_NUMBER(runin_read_log(text, 0, RUNIN_MOST_LABELS, steps, RUNIN_LOG_LENGTH)) == RUNIN_REFUSED_LOG_SIZE &&
           RUNIN_NUMBER(runin_read_log(text, 0, RUNIN_MOST_LABELS + 1, steps, RUNIN_LOG_LENGTH)) == RUNIN_REFUSED_LABEL_COUNT &&
           RUNIN_NUMBER(runin_write_pattern(pattern, 0, text, 0, text, 0)) == RUNIN_REFUSED_PATTERN_SHORT &&
           RUNIN_NUMBER(runin_write_log(steps, RUNIN_LOG_LENGTH, 1, text, sizeof text)) == RUNIN_REFUSED_NO_LOG;
}

int main(void)
{
    pattern[RUNIN_PATTERN_BEADS] = 2;
    result[RUNIN_RESULT_BEGINNINGS(3)] = 2;
    if (!runin_holds(pattern, result, 3) || runin_holds(pattern, result, 2))
        return 1;
    pattern[RUNIN_PATTERN_BEADS] = 0;
    result[RUNIN_RESULT_BEGINNINGS(3)] = 0;
    return parts() == RUNIN_ACCEPTED && places(7, 15, 15, 7) == 0 && refusals() ? 0 : 1;
}
