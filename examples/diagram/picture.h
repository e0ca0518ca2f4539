/* A judged run-in as a space-time diagram, in SVG. */
#ifndef PICTURE_H
#define PICTURE_H

#include "judged.h"

/* Draws it with the pivots of a step marked, and a brace for each bead. None where the whole pattern fails at the step, or no step is named (-1). */
void draw_picture(const struct judged *run, int step, FILE *out);

#endif
