/* Which links lie on a route from one pivot to the next. */
#ifndef ROUTES_H
#define ROUTES_H

#include "judged.h"

/* For each link the bead whose routes it lies on, from 1, or 0. The pivots are those of the step, at which the whole pattern holds. */
void find_routes(const struct judged *run, int step, uint8_t *bead_of_link);

#endif
