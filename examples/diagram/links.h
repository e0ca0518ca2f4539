/* The links as arrows. */
#ifndef LINKS_H
#define LINKS_H

#include "layout.h"

/* Draws each link in the colour of the bead whose routes it lies on, by the rule, and in grey where there is none. A link within a band bends
 * round the boxes in its way. One from an earlier band has a short end at each of its steps, with the other step's number. */
void draw_links(const struct judged *run, const struct layout *at, const uint8_t *bead_of_link, FILE *out);

#endif
