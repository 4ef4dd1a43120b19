/* What explain says, as an object; and what its two forms have in common. */
#ifndef CONSOLE_EXPLAIN_H
#define CONSOLE_EXPLAIN_H

#include "detour.h"
#include "json.h"

/* Trenches that are explained where neither one nor all of them are asked for. */
enum { EXPLAINED = 10 };

/* The trenches left out on whose detours trench i of the plan lies: they could come in for it.
   Gives their number, and the cheapest of them. */
size_t explain_instead(const struct table *t, struct paths *p, size_t i,
                       unsigned instead[STAR_MAX_ROWS], unsigned *cheapest);

/* The verdict, and each trench that is explained; trench is the one that is named, 0 for none. */
void explain_json(FILE *to, const struct table *t, struct star_answer a, size_t trench,
                  const struct options *with, int status);

#endif
