/* The least total of a network with exactly t rows at junction r, found in two ways: on small
   tables by trying every set of rows, on any table by adding one number to the prices at r until
   the least network has t rows there. */
#ifndef TESTS_PLAIN_OUTLETS_H
#define TESTS_PLAIN_OUTLETS_H

#include "rows.h"

/* Whether a network with exactly t rows at r exists, and its least total. The table is
   connected. */
struct outlets {
    int exists;
    int64_t total;
};

/* By every set of n - 1 rows. */
struct outlets outlets_listed(uint32_t n, const struct rows *r, uint32_t at, uint32_t t);

/* By sorted rows: the junctions at r are between as many as there are groups without r, and as
   there are rows at r. */
struct outlets outlets_shifted(const struct rows *r, uint32_t at, uint32_t t);

#endif
