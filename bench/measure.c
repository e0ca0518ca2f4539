/* Time and stack of a call.
 *
 * Time is CPU time of this process, so that other work on the machine disturbs it less. The stack of a call is measured on a stack of our
 * own, painted before: how far down the paint is gone. */
#include "bench.h"

#include <stdlib.h>
#include <time.h>
#include <ucontext.h>

double cpu_seconds(void) {
    struct timespec t;
    clock_gettime(CLOCK_PROCESS_CPUTIME_ID, &t);
    return t.tv_sec + t.tv_nsec * 1e-9;
}

static int compare(const void *a, const void *b) {
    double x = *(const double *)a, y = *(const double *)b;
    return (x > y) - (x < y);
}

double median(double *values, int count) {
    qsort(values, count, sizeof *values, compare);
    return count % 2 ? values[count / 2] : (values[count / 2 - 1] + values[count / 2]) / 2;
}

enum { WORDS = 1 << 17 };
static const uint64_t paint = 0xa5c35a3c96695aa5u;
static uint64_t stack[WORDS] __attribute__((aligned(64)));

size_t peak_stack(void (*call)(void)) {
    static ucontext_t here, there;
    for (size_t i = 0; i < WORDS; i++) stack[i] = paint;
    getcontext(&there);
    there.uc_stack.ss_sp = stack;
    there.uc_stack.ss_size = sizeof stack;
    there.uc_link = &here;
    makecontext(&there, call, 0);
    swapcontext(&here, &there);
    size_t low = 0;
    while (low < WORDS && stack[low] == paint) low++;
    return (WORDS - low) * sizeof *stack;
}
