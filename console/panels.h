/* The four panels of a page, one for each error that planners bring. */
#ifndef CONSOLE_PANELS_H
#define CONSOLE_PANELS_H

#include "views.h"

/* A paragraph. */
void panel_plain(FILE *to, const char *text);

/* The verdict on a table: an answer of the proved core in words, under its sign, and below it what
   the console adds; of a refusal the number in the library's words, and what the console says of it
   in a box of its own colour. */
void panel_verdict(FILE *to, const struct table *t, struct star_answer a);

/* Each over a drawing whose table has what the panel shows. */
void panel_ring(FILE *to, const struct drawing *g);    /* marks that are no network */
void panel_detours(FILE *to, const struct drawing *g); /* a network, and trenches that are left
                                                          out */
void panel_equal(FILE *to, const struct drawing *g, const struct table *other); /* two cheapest
                                                                                   networks of one
                                                                                   total */

/* A table's number of junctions beside the limit. */
void panel_limit(FILE *to, const struct table *t);

#endif
