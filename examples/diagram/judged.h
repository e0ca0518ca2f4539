/* A run-in with its rows, as the picture reads it. */
#ifndef JUDGED_H
#define JUDGED_H

#include "host.h"

/* The limits, as numbers that an int is compared with. */
enum { MOST_STEPS = RUNIN_MOST_STEPS, MOST_LINKS = RUNIN_MOST_LINKS, MOST_LABELS = RUNIN_MOST_LABELS };

struct judged {
    uint16_t pattern[RUNIN_PATTERN_LENGTH], log[RUNIN_LOG_LENGTH], result[RUNIN_RESULT_LENGTH];
    char names[MOST_LABELS][RUNIN_MOST_NAME + 1];
};

/* Reads both texts and judges them. Where one is refused, prints why to standard error and gives 0. */
int judge_files(struct judged *run, const char *pattern_path, const char *log_path);

int step_count(const struct judged *run);
int bead_count(const struct judged *run);
/* Beads from 1: SOME or ALL. */
const char *rule_name(const struct judged *run, int bead);
int board_of(const struct judged *run, int step);
int has_label(const struct judged *run, int step, int label);
/* The links into a step are those from the first of it to before the first of the next step; each has the step that it comes from. */
int first_link(const struct judged *run, int step);
int link_source(const struct judged *run, int link);

/* Does the whole pattern hold at the step? Then pivot 0 is step 0, and the last one is the step. */
int holds(const struct judged *run, int step);
int pivot(const struct judged *run, int step, int number);

#endif
