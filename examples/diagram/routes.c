#include "routes.h"
#include <string.h>

/* Marks the links of all routes from one step to a later one: those from a step that the first leads to, to a step that leads to the last. */
static void mark_routes(const struct judged *run, int from, int to, uint8_t bead, uint8_t *bead_of_link)
{
    uint8_t reached[MOST_STEPS] = { 0 }, leads[MOST_STEPS] = { 0 };
    reached[from] = leads[to] = 1;
    for (int step = from + 1; step <= to; step++)
        for (int link = first_link(run, step); link < first_link(run, step + 1); link++)
            reached[step] |= reached[link_source(run, link)];
    for (int step = to; step > from; step--) {
        for (int link = first_link(run, step); leads[step] && link < first_link(run, step + 1); link++) {
            leads[link_source(run, link)] = 1;
            if (reached[link_source(run, link)])
                bead_of_link[link] = bead;
        }
    }
}

void find_routes(const struct judged *run, int step, uint8_t *bead_of_link)
{
    memset(bead_of_link, 0, MOST_LINKS);
    for (int bead = 1; bead <= bead_count(run); bead++)
        mark_routes(run, pivot(run, step, bead - 1), pivot(run, step, bead), (uint8_t)bead, bead_of_link);
}
