#include "links.h"
#include "picture.h"
#include "routes.h"

struct picture {
    const struct judged *run;
    const struct layout *at;
    int step; /* whose pivots are marked, or -1 */
    FILE *out;
};

static void draw_style(const struct picture *of)
{
    fprintf(of->out, "<svg xmlns=\"http://www.w3.org/2000/svg\" width=\"%d\" height=\"%d\" viewBox=\"0 0 %d %d\">\n",
            of->at->width, of->at->height, of->at->width, of->at->height);
    fputs("<style>\n"
          "text { font: 11px 'DejaVu Sans Mono', Menlo, Consolas, monospace; fill: #222; }\n"
          ".title { font: bold 13px 'DejaVu Sans', Helvetica, Arial, sans-serif; }\n"
          ".lane { fill: #555; } .number { fill: #777; } .pivot { fill: #a04b00; font-weight: bold; }\n"
          ".far { font-size: 9px; fill: #666; paint-order: stroke; stroke: #fff; stroke-width: 3px; }\n"
          ".line { stroke: #ddd; stroke-width: 1; } .strip { fill: #fdebc8; }\n"
          ".box { fill: #fff; stroke: #555; stroke-width: 1.2; } .marked { fill: #ffd27f; stroke: #a04b00; stroke-width: 2; }\n"
          ".link, .brace { fill: none; stroke: #999; stroke-width: 1.2; } .head { fill: #999; }\n"
          ".link.SOME, .brace.SOME { stroke: #1f5fbf; stroke-width: 1.8; } .head.SOME, text.SOME { fill: #1f5fbf; }\n"
          ".link.ALL, .brace.ALL { stroke: #b3261e; stroke-width: 1.8; } .head.ALL, text.ALL { fill: #b3261e; }\n"
          "</style>\n", of->out);
    fprintf(of->out, "<rect width=\"%d\" height=\"%d\" fill=\"#fff\"/>\n", of->at->width, of->at->height);
}

static void draw_title(const struct picture *of, int asked)
{
    fputs("<text class=\"title\" x=\"8\" y=\"20\">The whole pattern ", of->out);
    if (of->step >= 0) {
        fprintf(of->out, "holds at step %d: pivots ", of->step);
        for (int k = 0; k <= bead_count(of->run); k++)
            fprintf(of->out, "%s%d", k ? "," : "", pivot(of->run, of->step, k));
    } else if (asked >= 0) {
        fprintf(of->out, "fails at step %d", asked);
    } else {
        fputs("holds at no step", of->out);
    }
    fputs("</text>\n", of->out);
}

/* How many of the pivots the step is: they follow each other, and the first of them has this number. */
static int times_pivot(const struct picture *of, int step, int *first)
{
    int count = 0;
    for (int k = bead_count(of->run); of->step >= 0 && k >= 0; k--) {
        if (pivot(of->run, of->step, k) == step) {
            *first = k;
            count++;
        }
    }
    return count;
}

/* A column's number at its head and a line down from it. A pivot has a strip, and its names p0, p1 and so on: p1-2 is both. */
static void draw_column(const struct picture *of, int step)
{
    const struct layout *at = of->at;
    int x = at->box[step].x, top = band_top(at, band_of(at, step)), first = 0, count = times_pivot(of, step, &first);
    if (count) {
        fprintf(of->out, "<rect class=\"strip\" x=\"%d\" y=\"%d\" width=\"%d\" height=\"%d\"/>\n",
                x - at->column_width / 2 + 2, top, at->column_width - 4, at->braces_top);
        fprintf(of->out, "<text class=\"pivot\" x=\"%d\" y=\"%d\" text-anchor=\"middle\">p%d", x, top + 12, first);
        if (count > 1)
            fprintf(of->out, "-%d", first + count - 1);
        fputs("</text>\n", of->out);
    }
    fprintf(of->out, "<path class=\"line\" d=\"M%d %dV%d\"/>\n", x, top + at->lanes_top - 6, top + at->braces_top);
    fprintf(of->out, "<text class=\"%s\" x=\"%d\" y=\"%d\" text-anchor=\"middle\">%d</text>\n",
            count ? "pivot" : "number", x, top + at->lanes_top - 10, step);
}

static void draw_lanes(const struct picture *of, int band)
{
    const struct layout *at = of->at;
    for (int lane = 0; lane < at->lanes; lane++) {
        int y = band_top(at, band) + at->lane_y[lane];
        fprintf(of->out, "<text class=\"lane\" x=\"%d\" y=\"%d\" text-anchor=\"end\">board %d</text>\n", at->left - 6, y + 4, at->lane_board[lane]);
        fprintf(of->out, "<path class=\"line\" d=\"M%d %dh%d\"/>\n", at->left, y, at->line_width);
    }
}

/* A step with the names of its labels, of which a reading takes one. A bare step is a dot. */
static void draw_step(const struct picture *of, int step)
{
    const struct box *box = &of->at->box[step];
    int first, y = box->y - box->height / 2;
    fprintf(of->out, "<rect class=\"box%s\" x=\"%d\" y=\"%d\" width=\"%d\" height=\"%d\" rx=\"5\"/>\n",
            times_pivot(of, step, &first) ? " marked" : "", box->x - box->width / 2, y, box->width, box->height);
    for (int label = 0; label < MOST_LABELS; label++) {
        if (!has_label(of->run, step, label))
            continue;
        y += LINE_HEIGHT;
        fprintf(of->out, "<text x=\"%d\" y=\"%d\" text-anchor=\"middle\">%s</text>\n", box->x, y, of->run->names[label]);
    }
}

/* A brace from one place to the other, with its tip down. Where it goes on in another band, its end is open. */
static void draw_brace(const struct picture *of, int bead, int band, int from, int to)
{
    const struct layout *at = of->at;
    const char *rule = rule_name(of->run, bead);
    int begins = band_of(at, from) == band, ends = band_of(at, to) == band, half = at->column_width / 2 - 2;
    int left = begins ? at->box[from].x : at->left, right = ends ? at->box[to].x : at->left + at->line_width;
    if (from == to) {
        left -= half;
        right += half;
    }
    int middle = (left + right) / 2, y = band_top(at, band) + at->braces_top + (bead - 1) * BRACE_HEIGHT;
    if (begins)
        fprintf(of->out, "<path class=\"brace %s\" d=\"M%d %dq0 7 7 7", rule, left, y);
    else
        fprintf(of->out, "<path class=\"brace %s\" d=\"M%d %d", rule, left, y + 7);
    fprintf(of->out, "H%dq7 0 7 6q0 -6 7 -6H%d%s\"/>\n", middle - 7, ends ? right - 7 : right, ends ? "q7 0 7 -7" : "");
    fprintf(of->out, "<text class=\"%s\" x=\"%d\" y=\"%d\" text-anchor=\"middle\">bead %d %s</text>\n", rule, middle, y + 24, bead, rule);
}

static void draw_braces(const struct picture *of)
{
    for (int bead = 1; of->step >= 0 && bead <= bead_count(of->run); bead++) {
        int from = pivot(of->run, of->step, bead - 1), to = pivot(of->run, of->step, bead);
        for (int band = band_of(of->at, from); band <= band_of(of->at, to); band++)
            draw_brace(of, bead, band, from, to);
    }
}

void draw_picture(const struct judged *run, int step, FILE *out)
{
    static struct layout at;
    static uint8_t bead_of_link[MOST_LINKS];
    struct picture of = { run, &at, step >= 0 && holds(run, step) ? step : -1, out };
    lay_out(run, of.step >= 0 ? bead_count(run) : 0, &at);
    if (of.step >= 0)
        find_routes(run, of.step, bead_of_link);
    draw_style(&of);
    draw_title(&of, step);
    for (int i = 0; i < step_count(run); i++)
        draw_column(&of, i);
    for (int band = 0; band < at.bands; band++)
        draw_lanes(&of, band);
    draw_links(run, &at, bead_of_link, out);
    for (int i = 0; i < step_count(run); i++)
        draw_step(&of, i);
    draw_braces(&of);
    fputs("</svg>\n", out);
}
