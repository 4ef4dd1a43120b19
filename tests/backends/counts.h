/* What calls came to: refusals, kinds of answers, widths; and whether each of them was there. */
#ifndef BACKENDS_COUNTS_H
#define BACKENDS_COUNTS_H

#include <stdint.h>

#include "calls.h"

/* Counts a call that was made: `before` as it was lent, `after` as it came back. */
void counts_add(const struct call *before, const struct call *after, uint32_t result);

/* Prints a line for each door; gives the number of entries that should be there and are 0. */
unsigned counts_print(void);

#endif
