#include "layout.h"
#include <string.h>

/* The font is a monospaced one of 11 pixels: three letters take twenty. */
enum { THREE_LETTERS = 20, LEFT = 76, INDENT = 24, RIGHT = 30, SCREEN = 1400, NARROWEST_COLUMN = 38, NARROWEST_PICTURE = 480 };
enum { TITLE = 34, HEAD = 36, LANE_GAP = 36, BAND_GAP = 26 };

static int larger(int a, int b)
{
    return a > b ? a : b;
}

int band_of(const struct layout *at, int step)
{
    return step / at->columns;
}

int band_top(const struct layout *at, int band)
{
    return TITLE + band * (at->band_height + BAND_GAP);
}

int band_begin(const struct layout *at, int band)
{
    return band * at->columns;
}

int band_end(const struct judged *run, const struct layout *at, int band)
{
    int end = band_begin(at, band + 1);
    return end < step_count(run) ? end : step_count(run);
}

int lane_of(const struct judged *run, const struct layout *at, int step)
{
    int lane = 0;
    while (at->lane_board[lane] != board_of(run, step))
        lane++;
    return lane;
}

/* A step's box holds the names of its labels, one below the other; that of a bare step is a small dot. */
static void size_boxes(const struct judged *run, struct layout *at)
{
    for (int step = 0; step < step_count(run); step++) {
        int lines = 0, letters = 0;
        for (int label = 0; label < MOST_LABELS; label++) {
            if (!has_label(run, step, label))
                continue;
            lines++;
            letters = larger(letters, (int)strlen(run->names[label]));
        }
        at->box[step].width = lines ? letters * THREE_LETTERS / 3 + 9 : 10;
        at->box[step].height = lines ? lines * LINE_HEIGHT + 5 : 10;
    }
}

/* A lane for each board that has a step, by number, as high as its highest box. */
static void place_lanes(const struct judged *run, int braces, struct layout *at)
{
    int bottom = HEAD;
    at->lanes = 0;
    for (int board = 0; board < MOST_BOARDS; board++) {
        int highest = 0;
        for (int step = 0; step < step_count(run); step++)
            if (board_of(run, step) == board)
                highest = larger(highest, at->box[step].height);
        if (highest == 0)
            continue;
        at->lane_board[at->lanes] = board;
        at->lane_y[at->lanes++] = bottom + (highest + LANE_GAP) / 2;
        bottom += highest + LANE_GAP;
    }
    at->lanes_top = HEAD;
    at->braces_top = bottom;
    at->band_height = bottom + braces * BRACE_HEIGHT;
}

/* Columns as wide as the widest box needs, and no more bands than needed, all of about the same length. */
static void place_columns(const struct judged *run, struct layout *at)
{
    int widest = 0;
    for (int step = 0; step < step_count(run); step++)
        widest = larger(widest, at->box[step].width);
    at->left = LEFT;
    at->column_width = larger(NARROWEST_COLUMN, widest + 13);
    int most = SCREEN / at->column_width;
    at->bands = (step_count(run) + most - 1) / most;
    at->columns = (step_count(run) + at->bands - 1) / at->bands;
    at->line_width = 2 * INDENT + at->columns * at->column_width;
}

void lay_out(const struct judged *run, int braces, struct layout *at)
{
    size_boxes(run, at);
    place_lanes(run, braces, at);
    place_columns(run, at);
    for (int step = 0; step < step_count(run); step++) {
        int band = band_of(at, step);
        at->box[step].x = at->left + INDENT + (step - band_begin(at, band)) * at->column_width + at->column_width / 2;
        at->box[step].y = band_top(at, band) + at->lane_y[lane_of(run, at, step)];
    }
    at->width = larger(at->left + at->line_width + RIGHT, NARROWEST_PICTURE);
    at->height = band_top(at, at->bands - 1) + at->band_height + 10;
}
