#include "links.h"
#include <math.h>

/* A curve from the first point to the last, drawn towards the middle one. */
struct curve {
    double x[3], y[3];
};

struct point {
    double x, y;
};

enum { SAMPLES = 60, BENDS = 19, BEND = 12, ARROW = 8, CLEARANCE = 4, STUB_ACROSS = 13, STUB_DOWN = 13 };

static struct point point_at(const struct curve *curve, double t)
{
    double a = (1 - t) * (1 - t), b = 2 * t * (1 - t), c = t * t;
    struct point point = { a * curve->x[0] + b * curve->x[1] + c * curve->x[2], a * curve->y[0] + b * curve->y[1] + c * curve->y[2] };
    return point;
}

static int inside(const struct box *box, struct point point, double around)
{
    return fabs(point.x - box->x) < box->width / 2.0 + around && fabs(point.y - box->y) < box->height / 2.0 + around;
}

/* Between two boxes; its middle lies so far off the straight line, to the left of who walks along it if the number is above 0. */
static struct curve between(const struct box *from, const struct box *to, double bend)
{
    double across = to->x - from->x, down = to->y - from->y, length = hypot(across, down);
    double x = (from->x + to->x) / 2.0 + 2 * bend * down / length, y = (from->y + to->y) / 2.0 - 2 * bend * across / length;
    struct curve curve = { { from->x, x, to->x }, { from->y, y, to->y } };
    return curve;
}

/* How many points of the curve are in the box of a third step, or outside the lanes. */
static int hits(const struct judged *run, const struct layout *at, int source, int step, const struct curve *curve)
{
    int count = 0, band = band_of(at, step), top = band_top(at, band);
    for (int i = 1; i < SAMPLES; i++) {
        struct point point = point_at(curve, i / (double)SAMPLES);
        if (point.y < top + at->lanes_top || point.y > top + at->braces_top)
            count++;
        for (int other = band_begin(at, band); other < band_end(run, at, band); other++)
            if (other != source && other != step && inside(&at->box[other], point, CLEARANCE))
                count++;
    }
    return count;
}

/* The straightest curve that hits nothing, or else the one that hits least. */
static struct curve free_curve(const struct judged *run, const struct layout *at, int source, int step)
{
    struct curve best = between(&at->box[source], &at->box[step], 0);
    int least = hits(run, at, source, step, &best);
    for (int k = 1; k < BENDS && least > 0; k++) {
        struct curve curve = between(&at->box[source], &at->box[step], (k % 2 ? 1 : -1) * BEND * ((k + 1) / 2));
        int count = hits(run, at, source, step, &curve);
        if (count < least) {
            best = curve;
            least = count;
        }
    }
    return best;
}

/* The curve, and an arrow's head where it enters the box, if one is named. The rule is that of the bead whose link it is, or empty. */
static void draw_curve(const struct curve *curve, const struct box *to, const char *rule, FILE *out)
{
    fprintf(out, "<path class=\"link %s\" d=\"M%.1f %.1fQ%.1f %.1f %.1f %.1f\"/>\n", rule,
            curve->x[0], curve->y[0], curve->x[1], curve->y[1], curve->x[2], curve->y[2]);
    if (!to)
        return;
    double t = 1;
    while (t > 0 && inside(to, point_at(curve, t), 1))
        t -= 0.002;
    struct point tip = point_at(curve, t), behind = point_at(curve, t - 0.02);
    double length = hypot(tip.x - behind.x, tip.y - behind.y), x = (tip.x - behind.x) / length, y = (tip.y - behind.y) / length;
    double back_x = tip.x - ARROW * x, back_y = tip.y - ARROW * y;
    fprintf(out, "<path class=\"head %s\" d=\"M%.1f %.1fL%.1f %.1fL%.1f %.1fz\"/>\n", rule,
            tip.x, tip.y, back_x + 3.5 * y, back_y - 3.5 * x, back_x - 3.5 * y, back_y + 3.5 * x);
}

/* The links between a step and steps of other bands: the numbers of these steps, and the rule of a bead on whose routes one of them lies. */
struct elsewhere {
    char steps[40];
    size_t length;
    const char *rule;
};

static const char *rule_of(const struct judged *run, const uint8_t *bead_of_link, int link)
{
    return bead_of_link[link] ? rule_name(run, bead_of_link[link]) : "";
}

static void note(struct elsewhere *there, int step, const char *rule)
{
    if (*rule)
        there->rule = rule;
    size_t room = sizeof there->steps - there->length;
    if (room >= sizeof ",1023..")
        there->length += (size_t)snprintf(there->steps + there->length, room, "%s%d", there->length ? "," : "", step);
    else if (there->steps[there->length - 1] != '.') /* Two dots say that there are more. */
        there->length += (size_t)snprintf(there->steps + there->length, room, "..");
}

static void draw_text(double x, double y, const char *anchor, const char *text, FILE *out)
{
    fprintf(out, "<text class=\"far\" x=\"%.0f\" y=\"%.0f\" text-anchor=\"%s\">%s</text>\n", x, y, anchor, text);
}

/* Do the two steps follow each other on one board? */
static int same_thread(const struct judged *run, int source, int step)
{
    if (board_of(run, source) != board_of(run, step))
        return 0;
    for (int other = source + 1; other < step; other++)
        if (board_of(run, other) == board_of(run, step))
            return 0;
    return 1;
}

/* A board's own thread runs out at the band's right edge and comes in again at the left one. */
static void draw_thread(const struct layout *at, int source, int step, const char *rule, FILE *out)
{
    const struct box *from = &at->box[source], *to = &at->box[step];
    char number[12];
    int right = at->left + at->line_width;
    struct curve leaving = { { from->x, right, right }, { from->y, from->y, from->y } };
    struct curve coming = { { at->left, at->left, to->x }, { to->y, to->y, to->y } };
    draw_curve(&leaving, NULL, rule, out);
    draw_curve(&coming, to, rule, out);
    snprintf(number, sizeof number, "%d", step);
    draw_text(right + 2, from->y + 3, "start", number, out);
    snprintf(number, sizeof number, "%d", source);
    draw_text(at->left + 1, to->y - 4, "start", number, out);
}

/* The short end of links: they come from above on the left, and leave below on the right. */
static void draw_end(const struct box *box, int coming, const struct elsewhere *there, FILE *out)
{
    if (there->length == 0)
        return;
    int side = coming ? -1 : 1;
    double x = box->x + side * STUB_ACROSS, y = box->y + side * (box->height / 2 + STUB_DOWN);
    struct curve curve = { { x, x, box->x }, { y, y, box->y } };
    draw_curve(&curve, coming ? box : NULL, there->rule, out);
    draw_text(x, coming ? y - 2 : y + 8, "middle", there->steps, out);
}

/* The links from earlier bands into the step, and those from the step into later ones. */
static void draw_ends(const struct judged *run, const struct layout *at, const uint8_t *bead_of_link, int step, FILE *out)
{
    struct elsewhere earlier = { "", 0, "" }, later = { "", 0, "" };
    for (int other = 0; other < step_count(run); other++) {
        for (int link = first_link(run, other); link < first_link(run, other + 1); link++) {
            int source = link_source(run, link);
            const char *rule = rule_of(run, bead_of_link, link);
            if (band_of(at, source) == band_of(at, other))
                continue;
            if (other == step && same_thread(run, source, other))
                draw_thread(at, source, other, rule, out);
            else if (other == step)
                note(&earlier, source, rule);
            else if (source == step && !same_thread(run, source, other))
                note(&later, other, rule);
        }
    }
    draw_end(&at->box[step], 1, &earlier, out);
    draw_end(&at->box[step], 0, &later, out);
}

void draw_links(const struct judged *run, const struct layout *at, const uint8_t *bead_of_link, FILE *out)
{
    for (int step = 0; step < step_count(run); step++) {
        for (int link = first_link(run, step); link < first_link(run, step + 1); link++) {
            int source = link_source(run, link);
            if (band_of(at, source) != band_of(at, step))
                continue;
            struct curve curve = free_curve(run, at, source, step);
            draw_curve(&curve, &at->box[step], rule_of(run, bead_of_link, link), out);
        }
        draw_ends(run, at, bead_of_link, step, out);
    }
}
