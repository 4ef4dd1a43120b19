/* The rows of a table as numbers, and the parts of junctions that they join. */
#ifndef TESTS_ROWS_H
#define TESTS_ROWS_H

#include <stddef.h>
#include <stdint.h>

#include "star.h"

struct rows {
    size_t m;
    size_t row[STAR_MAX_ROWS]; /* their positions, counted from 1 */
    unsigned a[STAR_MAX_ROWS], b[STAR_MAX_ROWS];
    int64_t price[STAR_MAX_ROWS];
};

/* Parts of the junctions, joined one by one; 0 where the two are in one part already. */
struct parts {
    unsigned up[STAR_MAX_JUNCTIONS + 1];
};
void parts_start(struct parts *p);
unsigned parts_root(struct parts *p, unsigned v);
int parts_join(struct parts *p, unsigned a, unsigned b);

/* A least set without a ring that joins what the rows from index `from` to `to` join: 1 at the
   index of each of its rows in chosen and 0 at the others; gives their number. */
size_t rows_forest(const struct rows *r, size_t from, size_t to, uint8_t *chosen);

/* Every network of a small table, one after the other: how many rows it has at a junction, and its
   total. */
typedef void network(void *with, unsigned here, int64_t total);
void rows_networks(uint32_t n, const struct rows *r, uint32_t at, network *each, void *with);

#endif
