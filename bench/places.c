/* Where in its line a refusal of the plain readers is, counted from 1, and 0 where no single field is at fault. As in the library it is looked
 * for only after a refusal: the line is found again in the text. */
#include "fields.h"

/* A line by its number, from 1, and whether a newline ends it. */
static struct bytes line_of(const uint8_t *text, size_t text_len, unsigned line, int *ended) {
    const uint8_t *from = text, *end = text + text_len, *newline;
    while (line-- > 1) from = (const uint8_t *)memchr(from, '\n', end - from) + 1;
    newline = memchr(from, '\n', end - from);
    *ended = newline != NULL;
    return (struct bytes){from, (newline ? newline : end) - from};
}

/* The place of a byte outside 32 to 126 in a line that is not whole: 0 if it is too long or lacks its newline. -1 for a whole line. */
static int broken_place(struct bytes line, int ended) {
    if (line.len > MOST_LINE || !ended) return 0;
    for (size_t i = 0; i < line.len; i++) {
        if (line.at[i] < 32 || line.at[i] > 126) return i + 1;
    }
    return -1;
}

static unsigned place_of(struct bytes line, struct bytes field) {
    return field.at - line.at + 1;
}

/* 12: the leftmost name that is wrong, repeats an earlier label or is one too many. */
static unsigned wrong_name(struct bytes line, const struct bytes *fields, unsigned count) {
    static const char *const names[4] = {"bead", "rule", "state", "final"};
    for (unsigned i = 0; i < count; i++) {
        int wrong = i < 4 ? !same(fields[i], names[i]) : i >= 4 + MOST_LABELS || !is_name(fields[i]);
        for (unsigned k = 4; k < i && !wrong; k++) wrong = equal(fields[k], fields[i]);
        if (wrong) return place_of(line, fields[i]);
    }
    return 0;
}

unsigned header_place(const uint8_t *header, size_t header_len) {
    struct bytes fields[MOST_LINE + 1];
    int ended;
    struct bytes line = line_of(header, header_len, 1, &ended);
    if (line.len + 1 != header_len) return 0;
    int broken = broken_place(line, ended);
    return broken >= 0 ? (unsigned)broken : wrong_name(line, fields, split(line.at, line.len, fields));
}

/* 13: the bead, else the state, else final; after the last bead (0 for none) and its last state. */
static unsigned out_of_order(const struct bytes *fields, const uint16_t *buffer) {
    int32_t bead = number(fields[0]), state = number(fields[2]), last = buffer[1];
    if (bead > MOST_BEADS || (bead != last + 1 && (last == 0 || bead != last))) return 0;
    int32_t due = bead == last ? buffer[STATE_COUNTS + last - 1] : 0;
    return state >= MOST_STATES || state != due ? 2 : 3;
}

static int lacks(unsigned set, unsigned states) {
    return set >> states != 0;
}

static int not_one(unsigned set) {
    return set == 0 || (set & (set - 1));
}

unsigned pattern_place(const uint8_t *text, size_t text_len, unsigned refusal, unsigned line_number, const uint16_t *buffer) {
    struct bytes fields[MOST_LINE + 1];
    int ended;
    struct bytes line = line_of(text, text_len, line_number, &ended);
    int broken = broken_place(line, ended);
    if (broken >= 0) return broken;
    unsigned count = split(line.at, line.len, fields), i = 4;
    switch (refusal) {
    case RUNIN_REFUSED_PATTERN_LINE:
        if (count != 4u + buffer[0]) return 0;
        for (i = 0; i == 1 || number(fields[i]) >= 0;) i++;
        break;
    case RUNIN_REFUSED_PATTERN_HEADER:
        return wrong_name(line, fields, count);
    case RUNIN_REFUSED_PATTERN_ORDER:
        i = out_of_order(fields, buffer);
        break;
    case RUNIN_REFUSED_PATTERN_RULE:
        i = 1;
        break;
    case RUNIN_REFUSED_NEXT_STATE:
        while (!lacks(number(fields[i]), buffer[STATE_COUNTS + number(fields[0]) - 1])) i++;
        break;
    default:
        while (!not_one(number(fields[i]))) i++;
    }
    return place_of(line, fields[i]);
}

/* 22: the leftmost name that is none of the four, repeats an earlier one, or is a fifth. */
static unsigned wrong_column(struct bytes line, const struct bytes *fields, unsigned count) {
    for (unsigned i = 0; i < count; i++) {
        int wrong = !same(fields[i], "vertex") && !same(fields[i], "board") && !same(fields[i], "labels") && !same(fields[i], "preds");
        for (unsigned k = 0; k < i && !wrong; k++) wrong = equal(fields[k], fields[i]);
        if (wrong) return place_of(line, fields[i]);
    }
    return 0;
}

/* Is the field `-`, or numbers joined by single commas? Says how many. */
static int is_list(struct bytes field, unsigned *count) {
    size_t from = 0;
    *count = 0;
    if (same(field, "-")) return 1;
    for (size_t i = 0; i <= field.len; i++) {
        if (i < field.len && field.at[i] != ',') continue;
        if (number((struct bytes){field.at + from, i - from}) < 0) return 0;
        from = i + 1;
        ++*count;
    }
    return 1;
}

/* 21: the leftmost field that is wrong. */
static unsigned wrong_field(const struct bytes *fields, const unsigned *place) {
    unsigned count, i = 0;
    while (i < 3 && (i == place[3] ? is_list(fields[i], &count) : number(fields[i]) >= 0 && (i != place[1] || number(fields[i]) <= 255))) i++;
    return i;
}

/* 26: the vertex if the step is over 1,023, preds if a link is too many; if both, the one further left. */
static unsigned over_limit(const struct bytes *fields, const unsigned *place, unsigned v, const uint16_t *buffer) {
    unsigned count;
    is_list(fields[place[3]], &count);
    int many = count > 8 || buffer[BEGINS + v] + count > MOST_LINKS;
    if (v < MOST_STEPS) return place[3];
    return many && place[3] < place[0] ? place[3] : place[0];
}

unsigned log_place(const uint8_t *text, size_t text_len, unsigned refusal, unsigned line_number, const unsigned *place,
                   const uint16_t *buffer) {
    struct bytes fields[MOST_LINE + 1];
    int ended;
    struct bytes line = line_of(text, text_len, line_number, &ended);
    int broken = broken_place(line, ended);
    if (broken >= 0) return broken;
    unsigned count = split(line.at, line.len, fields), i = 0;
    switch (refusal) {
    case RUNIN_REFUSED_LOG_LINE:
        if (count != 4) return 0;
        i = wrong_field(fields, place);
        break;
    case RUNIN_REFUSED_LOG_HEADER:
        return wrong_column(line, fields, count);
    case RUNIN_REFUSED_STEP_NUMBER:
        i = place[0];
        break;
    case RUNIN_REFUSED_LINKS:
        i = place[3];
        break;
    case RUNIN_REFUSED_LABELS:
        i = place[2];
        break;
    default:
        i = over_limit(fields, place, line_number - 2, buffer);
    }
    return place_of(line, fields[i]);
}
