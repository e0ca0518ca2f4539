/* The run-in log judge, for C and C++: five calls on numbers and lent buffers. This header says all that a caller needs.
 *
 * A pattern's text and a log's text are read into buffers of numbers, the log is judged by the pattern, and a buffer is
 * written back as a text. A whole program:
 *
 *     #include "runin.h"
 *     #include <stdio.h>
 *     static const uint8_t rule[] = "bead rule state final vac\n1 ALL 0 0 2\n1 ALL 1 1 2\n";
 *     static const uint8_t run[] = "vertex board labels preds\n0 0 0 -\n1 7 0 0\n2 7 1 1\n";
 *     static uint16_t p[RUNIN_PATTERN_LENGTH], l[RUNIN_LOG_LENGTH], r[RUNIN_RESULT_LENGTH], w[RUNIN_WORK_LENGTH];
 *     int main(void) {
 *         uint64_t a = runin_read_pattern(rule, sizeof rule - 1, p, RUNIN_PATTERN_LENGTH);
 *         if (RUNIN_NUMBER(a) == RUNIN_ACCEPTED)
 *             a = runin_read_log(run, sizeof run - 1, p[RUNIN_PATTERN_LABELS], l, RUNIN_LOG_LENGTH);
 *         if (RUNIN_NUMBER(a) == RUNIN_ACCEPTED)
 *             a = runin_judge(p, RUNIN_PATTERN_LENGTH, l, RUNIN_LOG_LENGTH, r, RUNIN_RESULT_LENGTH, w, RUNIN_WORK_LENGTH);
 *         printf("refusal %u, line %u, byte %u\n", RUNIN_NUMBER(a), RUNIN_LINE(a), RUNIN_BYTE(a));
 *         for (unsigned v = 0; v < l[RUNIN_LOG_STEPS]; v++)
 *             printf("step %u, board %u: %s\n", v, l[RUNIN_LOG_BOARD(v)], runin_holds(p, r, v) ? "holds" : "fails");
 *     }
 *
 * With the path that `bin/staticlib` prints, `cc -I include program.c librunin.a` builds it. It prints:
 *
 *     refusal 0, line 0, byte 0
 *     step 0, board 0: fails
 *     step 1, board 7: fails
 *     step 2, board 7: holds
 *
 * The archive is for x86-64 Linux and needs nothing but the C library. `bin/staticlib` proves and builds it first where
 * that is needed. Every call ends, tests what it is lent, allocates nothing, has no data of its own and keeps nothing
 * between calls: any number of threads may call, each with its own buffers, and what a call only reads they may share.
 * A call uses less than 64 KiB of stack (the judge, the largest, some 27 KiB). Lengths count elements, not bytes.
 *
 * What no contract covers: each pointer is valid for its length and aligned for its type, also where the length is 0
 * (use the address of any object then, not NULL), and the buffers of one call do not overlap.
 *
 * A label count is a uint16_t. C cuts a larger int before the call, so that the call can't see it: 65,537 arrives as 1.
 * Test it first.
 */
#ifndef RUNIN_H
#define RUNIN_H

#include <stddef.h>
#include <stdint.h>

#ifdef __cplusplus
extern "C" {
#endif

/* Counts up with each change that a host can see: 1 three calls, 2 the writers, 3 the byte, 4 a step's route to itself,
 * 5 the refusals' prefix and the places. The archive of the same checkout is of the same version. */
#define RUNIN_VERSION 5

/* Limits of the two texts. A reader refuses what is over one, and a buffer has room for just as much. */
#define RUNIN_MOST_BEADS 8u
#define RUNIN_MOST_STATES 16u /* of a bead */
#define RUNIN_MOST_LABELS 16u
#define RUNIN_MOST_NAME 12u /* bytes of a label's name */
#define RUNIN_MOST_STEPS 1024u /* step 0 included */
#define RUNIN_MOST_LINKS 4096u /* of a log */
#define RUNIN_MOST_PREDS 8u /* links into one step */
#define RUNIN_MOST_BOARD 255u
#define RUNIN_MOST_LINE 240u /* bytes, without the newline */
#define RUNIN_MOST_PATTERN_TEXT 16384u /* bytes */
#define RUNIN_MOST_LOG_TEXT 65535u /* bytes */

/* Lengths of the lent buffers, in uint16_t. A longer buffer is fine: what lies past these lengths is neither read nor
 * written. The text buffer that a text is written into has bytes, and is long enough if it holds the text. */
#define RUNIN_PATTERN_LENGTH 2074u
#define RUNIN_LOG_LENGTH 7170u
#define RUNIN_RESULT_LENGTH 10240u
#define RUNIN_WORK_LENGTH 16384u

/* Places in a pattern buffer: pattern[RUNIN_PATTERN_STATES(0)] is how many states the first bead has. Beads, states and
 * labels count from 0, so the text's bead 1 is bead 0. A set has bit i for member i. Places of beads, states and labels
 * that the pattern lacks have 0. */
#define RUNIN_PATTERN_LABELS 0u /* how many labels: the label count to hand to runin_read_log */
#define RUNIN_PATTERN_BEADS 1u /* how many beads */
#define RUNIN_PATTERN_RULE(bead) (2u + (size_t)(bead)) /* RUNIN_SOME or RUNIN_ALL */
#define RUNIN_PATTERN_STATES(bead) (10u + (size_t)(bead)) /* how many states */
#define RUNIN_PATTERN_FINAL(bead) (18u + (size_t)(bead)) /* the set of its final states */
#define RUNIN_PATTERN_NEXT(bead, state, label) \
    (26u + ((size_t)(bead) * RUNIN_MOST_STATES + (size_t)(state)) * RUNIN_MOST_LABELS + (size_t)(label)) /* next states */

#define RUNIN_SOME 1u
#define RUNIN_ALL 2u

/* Places in a log buffer. The links into a step, rising, are log[RUNIN_LOG_LINK(k)] for each k from
 * log[RUNIN_LOG_BEGIN(step)] up to but not including log[RUNIN_LOG_BEGIN(step + 1)]; RUNIN_LOG_BEGIN(steps) has how many
 * links there are. Places of steps and links that the log lacks have 0. */
#define RUNIN_LOG_STEPS 0u /* how many steps */
#define RUNIN_LOG_LABELS(step) (1u + (size_t)(step)) /* the set of its labels */
#define RUNIN_LOG_BOARD(step) (1025u + (size_t)(step))
#define RUNIN_LOG_BEGIN(step) (2049u + (size_t)(step)) /* where its links begin */
#define RUNIN_LOG_LINK(k) (3074u + (size_t)(k)) /* the step that this link comes from */

/* Places in the result. The set of beginnings has bit 0 if the first bead holds at the step, bit 1 if the first two do,
 * and so on. Pivots, from 0 to the bead count, stand where the whole pattern holds, and 0 elsewhere. */
#define RUNIN_ROW_LENGTH 10u
#define RUNIN_RESULT_BEGINNINGS(step) (RUNIN_ROW_LENGTH * (size_t)(step))
#define RUNIN_RESULT_PIVOT(step, k) (RUNIN_ROW_LENGTH * (size_t)(step) + 1u + (size_t)(k))

/* Does the whole pattern hold at this step? Asked after an accepted judging, of a step that the log has. */
static inline int runin_holds(const uint16_t *pattern, const uint16_t *result, size_t step)
{
    return result[RUNIN_RESULT_BEGINNINGS(step)] >> (pattern[RUNIN_PATTERN_BEADS] - 1) & 1;
}

/* An answer is byte, number, line, count in one uint64_t, each below 65,536. A refusal has count 0, line 0 except where
 * a line of a text is at fault, byte 0 except where a single place in that line is, and leaves every lent buffer as it
 * was.
 *
 * Earlier answers had no byte, and a shift by 32 alone gave the number. It no longer does: use RUNIN_NUMBER. */
#define RUNIN_BYTE(answer) ((uint32_t)((uint64_t)(answer) >> 48))
#define RUNIN_NUMBER(answer) ((uint32_t)(((uint64_t)(answer) >> 32) & 0xffffu))
#define RUNIN_LINE(answer) ((uint32_t)(((uint64_t)(answer) >> 16) & 0xffffu))
#define RUNIN_COUNT(answer) ((uint32_t)((uint64_t)(answer) & 0xffffu))

/* The byte is where in the line the field at fault starts: 1 plus the bytes of the line before it. An empty field has the
 * place where it would begin, so behind a last space it is the line's length plus 1. It is at most RUNIN_MOST_LINE + 1.
 * Of several causes of one number, the first here decides:
 *
 *   11, 21          line too long: 0; newline missing: 0; the first byte outside 32 to 126, its own place; below the
 *                   header: a wrong number of fields: 0; the leftmost field that is wrong (preds is one field, whichever
 *                   of its numbers is odd)
 *   12, 22          the leftmost name that is wrong, repeats an earlier label or column, or is too many; names missing: 0
 *   13              nothing after the header (line 1): 0; the bead; the state; final
 *   14, 15, 16      the rule; the leftmost next set with a state that the bead lacks; the leftmost without exactly one state
 *   23, 24, 25      vertex; preds, also where it is -; labels
 *   26              no step at all (line 1): 0; vertex for a step too many, preds for a link too many; where both are, the
 *                   one further left
 *   12 of a writer  not exactly one newline, at the end: 0; line too long: 0; the first byte outside 32 to 126; the
 *                   leftmost name as above; names missing: 0; another label count: 0
 *
 * Every other answer has byte 0, also each one of runin_judge. */

/* The number of an answer: accepted, or else a refusal. */
#define RUNIN_ACCEPTED 0u

/* The host program is at fault. */
#define RUNIN_REFUSED_LOG_SHORT 1u     /* log buffer shorter than RUNIN_LOG_LENGTH */
#define RUNIN_REFUSED_PATTERN_SHORT 2u /* pattern buffer shorter than RUNIN_PATTERN_LENGTH */
#define RUNIN_REFUSED_RESULT_SHORT 3u  /* result buffer shorter than RUNIN_RESULT_LENGTH */
#define RUNIN_REFUSED_WORK_SHORT 4u    /* work buffer shorter than RUNIN_WORK_LENGTH */
#define RUNIN_REFUSED_LABEL_COUNT 5u   /* label count not 1 to RUNIN_MOST_LABELS */
#define RUNIN_REFUSED_NO_PATTERN 6u    /* pattern buffer not what an accepted text gives */
#define RUNIN_REFUSED_NO_LOG 7u        /* log buffer not what an accepted text gives, with the pattern's label count or the one handed in */
#define RUNIN_REFUSED_TEXT_SHORT 8u    /* text buffer shorter than the text to be written */

/* Whoever wrote the pattern or the header text is at fault. */
#define RUNIN_REFUSED_PATTERN_SIZE 10u   /* text empty or over RUNIN_MOST_PATTERN_TEXT bytes */
#define RUNIN_REFUSED_PATTERN_LINE 11u   /* line over RUNIN_MOST_LINE bytes, newline missing, byte outside 32 to 126; below
                                          * the header a wrong number of fields, or a field that is no number */
#define RUNIN_REFUSED_PATTERN_HEADER 12u /* header differs; of runin_write_pattern anything wrong with the header text, always line 1 */
#define RUNIN_REFUSED_PATTERN_ORDER 13u  /* bead or state out of order or over its limit, final over 1, nothing after the header */
#define RUNIN_REFUSED_PATTERN_RULE 14u   /* rule not SOME or ALL, changed inside a bead, or the same as the bead before */
#define RUNIN_REFUSED_NEXT_STATE 15u     /* next set with a state that the bead lacks */
#define RUNIN_REFUSED_NEXT_COUNT 16u     /* in an ALL bead, a next set without exactly one state */

/* The log is at fault. */
#define RUNIN_REFUSED_LOG_SIZE 20u    /* text empty or over RUNIN_MOST_LOG_TEXT bytes */
#define RUNIN_REFUSED_LOG_LINE 21u    /* as 11; board over RUNIN_MOST_BOARD; preds neither - nor numbers joined by single commas */
#define RUNIN_REFUSED_LOG_HEADER 22u  /* header differs */
#define RUNIN_REFUSED_STEP_NUMBER 23u /* step number not the line's number less two */
#define RUNIN_REFUSED_LINKS 24u       /* links of step 0, none elsewhere, not rising, not smaller than the step */
#define RUNIN_REFUSED_LABELS 25u      /* labels on step 0, or a label past the label count */
#define RUNIN_REFUSED_LOG_LIMIT 26u   /* over RUNIN_MOST_PREDS links in a line, RUNIN_MOST_STEPS steps or RUNIN_MOST_LINKS
                                       * links, or no step at all */

/* Reads a pattern's text into the pattern buffer. Accepted: fills all RUNIN_PATTERN_LENGTH numbers, unused places with 0;
 * the count is the number of beads. Refusals: 2, 10 to 16. */
uint64_t runin_read_pattern(const uint8_t *text, size_t text_len, uint16_t *pattern, size_t pattern_len);

/* Reads a log's text into the log buffer. Accepted: fills all RUNIN_LOG_LENGTH numbers, unused places with 0; the count is
 * the number of steps. Refusals: 1, 5, 20 to 26. */
uint64_t runin_read_log(const uint8_t *text, size_t text_len, uint16_t label_count, uint16_t *log, size_t log_len);

/* Judges a log by a pattern. Accepted: fills all RUNIN_RESULT_LENGTH numbers, a row a step and zeros, and leaves
 * RUNIN_WORK_LENGTH zeros in the work buffer; the count is the number of steps at which the whole pattern holds. The pivots
 * of a row never fall: the first is 0, the last is the step itself, and a step that ends several beads stands as often. At
 * step 0 all pivots are 0, so whether a row has pivots is told by the last bead's bit alone (runin_holds). The pattern and
 * the log buffer are only read. Both other buffers may hold anything before the call. Refusals: 1, 2, 3, 4, 6, 7. */
uint64_t runin_judge(const uint16_t *pattern, size_t pattern_len, const uint16_t *log, size_t log_len,
                     uint16_t *result, size_t result_len, uint16_t *work, size_t work_len);

/* Writes a pattern's text from the pattern buffer. The header text, newline included, opens the output as it is. Below it
 * stands a line for each bead and state, beads from 1 and states from 0 upwards: bead, SOME or ALL, state, final 0 or 1,
 * then the next set of each label, parted by one space. Accepted: the count is the length of the output in bytes; the text
 * buffer begins with the output, and its bytes after it are left alone. runin_read_pattern accepts the output and gives
 * back the same RUNIN_PATTERN_LENGTH numbers. A text buffer of RUNIN_MOST_PATTERN_TEXT bytes is always long enough. The
 * pattern buffer and the header text are only read. Refusals, the first that applies: 2, 6, 12, 8.
 *
 * 12, line 1, is for everything wrong with the header text, never 10 or 11. It has to be one line, its only newline last,
 * that runin_read_pattern would accept as a header, with as many labels as the pattern has. */
uint64_t runin_write_pattern(const uint16_t *pattern, size_t pattern_len, const uint8_t *header, size_t header_len,
                             uint8_t *text, size_t text_len);

/* Writes a log's text from the log buffer: vertex board labels preds, then a line a step with its columns in this order;
 * preds is - or the links joined by commas. Accepted: the count is the length of the output in bytes; the text buffer
 * begins with the output, and its bytes after it are left alone. runin_read_log with the same label count accepts the
 * output and gives back the same RUNIN_LOG_LENGTH numbers. A text buffer of RUNIN_MOST_LOG_TEXT bytes is always long
 * enough. The log buffer is only read. The label count decides 5 and 7 and nothing else: the text does not depend on it.
 * Refusals, the first that applies: 1, 5, 7, 8. */
uint64_t runin_write_log(const uint16_t *log, size_t log_len, uint16_t label_count, uint8_t *text, size_t text_len);

#ifdef __cplusplus
}
#endif

#endif
