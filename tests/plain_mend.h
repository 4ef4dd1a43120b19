/* A plain mender, by other means than the machine's: parts of junctions that are joined for the
   first two passes, and a search along the marks for each path of the third. */
#ifndef TESTS_PLAIN_MEND_H
#define TESTS_PLAIN_MEND_H

#include "rows.h"

/* Mends the marks of a connected table whose rows are listed, and writes the records; gives their
   number. */
size_t plain_mend(const struct rows *r, uint8_t *mark, struct star_record *list);

#endif
