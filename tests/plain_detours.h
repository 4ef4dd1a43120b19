/* The row beside each row of a plan that is a network: of a row outside it the dearest row of the
   way between its ends, by parent pointers; of a marked row the cheapest row that joins the two
   parts which are left without it; the uppermost among equals. And of all exchanges the one that
   saves most, by every pair of rows. */
#ifndef TESTS_PLAIN_DETOURS_H
#define TESTS_PLAIN_DETOURS_H

#include "rows.h"

/* The marks are at the rows' positions; beside has a number at each of them, and is cleared
   before for so many rows. */
void plain_detours(const struct rows *r, const uint8_t *mark, uint32_t *beside, size_t m);

/* The exchange that saves most, by every pair of rows: the uppermost row in among equals, and then
   the uppermost row out; zeros where none saves. */
struct saving {
    uint32_t out, in;
    int64_t saved;
};
struct saving plain_best(const struct rows *r, const uint8_t *mark);

#endif
