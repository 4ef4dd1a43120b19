/* A table as the doors take it, for the library's own files. Where its rows in use stand at the top
   without a gap it is handed to the plain door, which looks at these rows alone: of a small table
   that takes a tenth of the working door's time. */
#ifndef LENT_H
#define LENT_H

#include "star.h"

#define LENT(column) (column), sizeof(column)
#define COLUMNS(t) LENT((t)->left), LENT((t)->right), LENT((t)->weight)
#define ROWS(t) (t)->n, (t)->in_use, STAR_COLUMN_WORDS, COLUMNS(t)
#define ANSWER(a) LENT(a)

/* How a table is lent: plain or working, and the length of its columns. */
struct lent {
    int plain;
    size_t len;
};

/* Plain where the words of the rows in use are full ones, then one that is filled from below, then
   empty ones. */
static inline struct lent lent_as(const struct star_table *t) {
    struct lent as = {1, 0};
    size_t k = 0;
    uint64_t word;
    while (k < STAR_COLUMN_WORDS && t->in_use[k] == UINT64_MAX) k++;
    as.len = 64 * k;
    if (k == STAR_COLUMN_WORDS) return as;
    for (word = t->in_use[k]; word & 1; word >>= 1) as.len++;
    as.plain = word == 0;
    while (++k < STAR_COLUMN_WORDS) as.plain = as.plain && t->in_use[k] == 0;
    if (!as.plain) as.len = STAR_MAX_ROWS;
    return as;
}

/* star_DOOR or star_work_DOOR over a table, with what else it takes. */
#define PLAIN(t, as) (t)->n, (t)->left, (as).len, (t)->right, (as).len, (t)->weight, 4 * (as).len
#define ASK(t, as, door, ...) \
    ((as).plain ? star_##door(PLAIN(t, as), __VA_ARGS__) : star_work_##door(ROWS(t), __VA_ARGS__))

#endif
