/* Prints a log with its columns in the order vertex, board, labels, preds, whatever their order was: rewrite LOG. A refusal goes to standard
 * error, so that it never stands where a log should. Exit status: 0 accepted, 1 refused, 2 wrong usage, or the text could not be printed. */
#include "host.h"

/* No pattern is at hand. Under the largest label count no label is too many, and the text does not depend on it. */
enum { LABEL_COUNT = RUNIN_MOST_LABELS };

/* One byte more than the limit, so that an oversize file is seen as one. */
static uint8_t text[RUNIN_MOST_LOG_TEXT + 1];
static uint16_t log_buffer[RUNIN_LOG_LENGTH];

int main(int argc, char **argv)
{
    if (argc != 2) {
        fputs("usage: rewrite LOG\n", stderr);
        return 2;
    }
    size_t length = load(argv[1], text, sizeof text);
    if (refused(runin_read_log(text, length, LABEL_COUNT, log_buffer, RUNIN_LOG_LENGTH), text, length, stderr))
        return 1;
    /* All of the log is in its buffer now, so the text buffer is free for the new text. */
    uint64_t written = runin_write_log(log_buffer, RUNIN_LOG_LENGTH, LABEL_COUNT, text, sizeof text);
    if (refused(written, NULL, 0, stderr))
        return 1;
    fwrite(text, 1, RUNIN_COUNT(written), stdout);
    return fflush(stdout) || ferror(stdout) ? 2 : 0;
}
