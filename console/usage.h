/* The words that follow a command and its file. What is wrong is said on standard error, and
   EXIT_USAGE given; 0 if all is well. */
#ifndef CONSOLE_USAGE_H
#define CONSOLE_USAGE_H

#include <stdint.h>

#include "table.h"

int misused(const char *what, const char *word);

/* The number of a trench or of a junction that is asked about, which need not be one of the table:
   a junction by its number, or by its name where the file has names. The junction of a new trench
   as its line has it. A price, stored as the door takes it. */
int trench_named(const char *word, uint32_t *trench);
int junction_asked(const struct table *t, const char *word, uint32_t *junction);
int junction_entered(const struct table *t, const char *word, struct span *as);
int price_named(const char *word, uint8_t bytes[PRICE_BYTES]);

#endif
