/* Draws a judged run-in as a space-time diagram, an SVG on standard output: diagram PATTERN LOG [STEP]. A lane a board, a column a step, links
 * as arrows, the names of its labels in each step's box, the pivots of STEP marked and a brace for each bead. Without STEP it is the last step
 * at which the whole pattern holds. Exit status: 0 drawn, 1 refused, 2 no such step, or the picture could not be printed. */
#include "picture.h"
#include <stdlib.h>

static struct judged run;

/* The step of this number, or -1 if the log has none. */
static int named_step(const char *name)
{
    char *end;
    long step = strtol(name, &end, 10);
    return *name && !*end && step >= 0 && step < step_count(&run) ? (int)step : -1;
}

/* The last step at which the whole pattern holds, or -1. */
static int last_holding(void)
{
    int step = step_count(&run) - 1;
    while (step >= 0 && !holds(&run, step))
        step--;
    return step;
}

int main(int argc, char **argv)
{
    if (argc < 3 || argc > 4) {
        fputs("usage: diagram PATTERN LOG [STEP]\n", stderr);
        return 2;
    }
    if (!judge_files(&run, argv[1], argv[2]))
        return 1;
    int step = argc > 3 ? named_step(argv[3]) : last_holding();
    if (argc > 3 && step < 0) {
        fprintf(stderr, "diagram: the log has no step %s\n", argv[3]);
        return 2;
    }
    draw_picture(&run, step, stdout);
    return fflush(stdout) || ferror(stdout) ? 2 : 0;
}
