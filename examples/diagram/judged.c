#include "judged.h"
#include <string.h>

/* One byte more than the limits, so that an oversize file is seen as one. */
static uint8_t pattern_text[RUNIN_MOST_PATTERN_TEXT + 1], log_text[RUNIN_MOST_LOG_TEXT + 1];
static uint16_t work[RUNIN_WORK_LENGTH];

/* The label names are the header's fields behind the first four. The pattern buffer has only their number. */
static void take_names(struct judged *run)
{
    const uint8_t *at = pattern_text;
    for (int field = -4; field < run->pattern[RUNIN_PATTERN_LABELS]; field++) {
        size_t length = strcspn((const char *)at, " \n");
        if (field >= 0)
            memcpy(run->names[field], at, length);
        at += length + 1;
    }
}

int judge_files(struct judged *run, const char *pattern_path, const char *log_path)
{
    size_t length = load(pattern_path, pattern_text, sizeof pattern_text);
    if (refused(runin_read_pattern(pattern_text, length, run->pattern, RUNIN_PATTERN_LENGTH), pattern_text, length, stderr))
        return 0;
    take_names(run);
    length = load(log_path, log_text, sizeof log_text);
    if (refused(runin_read_log(log_text, length, run->pattern[RUNIN_PATTERN_LABELS], run->log, RUNIN_LOG_LENGTH), log_text, length, stderr))
        return 0;
    uint64_t held = runin_judge(run->pattern, RUNIN_PATTERN_LENGTH, run->log, RUNIN_LOG_LENGTH,
                                run->result, RUNIN_RESULT_LENGTH, work, RUNIN_WORK_LENGTH);
    return !refused(held, NULL, 0, stderr);
}

int step_count(const struct judged *run)
{
    return run->log[RUNIN_LOG_STEPS];
}

int bead_count(const struct judged *run)
{
    return run->pattern[RUNIN_PATTERN_BEADS];
}

const char *rule_name(const struct judged *run, int bead)
{
    static const char *const names[] = { [RUNIN_SOME] = "SOME", [RUNIN_ALL] = "ALL" };
    return names[run->pattern[RUNIN_PATTERN_RULE(bead - 1)]];
}

int board_of(const struct judged *run, int step)
{
    return run->log[RUNIN_LOG_BOARD(step)];
}

int has_label(const struct judged *run, int step, int label)
{
    return run->log[RUNIN_LOG_LABELS(step)] >> label & 1;
}

int first_link(const struct judged *run, int step)
{
    return run->log[RUNIN_LOG_BEGIN(step)];
}

int link_source(const struct judged *run, int link)
{
    return run->log[RUNIN_LOG_LINK(link)];
}

int holds(const struct judged *run, int step)
{
    return runin_holds(run->pattern, run->result, (size_t)step);
}

int pivot(const struct judged *run, int step, int number)
{
    return run->result[RUNIN_RESULT_PIVOT(step, number)];
}
