/* Where everything stands in the picture, in pixels. A band is as many columns as fit a screen; a longer log goes on in the next band. */
#ifndef LAYOUT_H
#define LAYOUT_H

#include "judged.h"

enum { MOST_BOARDS = RUNIN_MOST_BOARD + 1, LINE_HEIGHT = 13, BRACE_HEIGHT = 30 };

/* The middle of a step's box, and its size. */
struct box {
    int x, y, width, height;
};

struct layout {
    struct box box[MOST_STEPS];
    int lanes, lane_board[MOST_BOARDS], lane_y[MOST_BOARDS]; /* from the band's top */
    int left, line_width, column_width, columns;             /* of a band: its lines begin at the left */
    int bands, band_height, lanes_top, braces_top;           /* the lanes and the braces from the band's top */
    int width, height;
};

/* With room for so many braces below the lanes. */
void lay_out(const struct judged *run, int braces, struct layout *at);

int band_of(const struct layout *at, int step);
int band_top(const struct layout *at, int band);
/* The steps of a band, from the first to before the last. */
int band_begin(const struct layout *at, int band);
int band_end(const struct judged *run, const struct layout *at, int band);
int lane_of(const struct judged *run, const struct layout *at, int step);

#endif
