/* What the programs of this folder share: a file read into a buffer, a refusal in plain English. */
#ifndef HOST_H
#define HOST_H

#include "runin.h"
#include <stdio.h>

/* Reads at most so many bytes of a file and gives their number. A file that can't be opened or read counts as empty, so that a cut text is
 * never taken for a whole one. */
size_t load(const char *path, uint8_t *text, size_t size);

/* Is this answer a refusal? Prints it if so, and where a single place of the text is at fault, its line with a mark under the place. The text is
 * the one that was read, or NULL after a call that reads none. */
int refused(uint64_t answer, const uint8_t *text, size_t length, FILE *out);

#endif
