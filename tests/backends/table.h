/* A random table for the calls: its rows are mostly joined, its marks mostly a network. */
#ifndef BACKENDS_TABLE_H
#define BACKENDS_TABLE_H

#include <stddef.h>
#include <stdint.h>

enum { TABLE_ROWS = 1024, TABLE_ROOM = 1040 };

struct table {
    uint32_t n;
    int working;
    size_t m;              /* the rows in use */
    size_t rows;           /* the length of a column: m, or 1,024 where it is a working table */
    size_t at[TABLE_ROOM]; /* where each row in use stands, counted from 0 */
    uint8_t left[TABLE_ROOM], right[TABLE_ROOM], mark[TABLE_ROOM], weight[4 * TABLE_ROOM];
    uint64_t in_use[16];
};

void table_make(struct table *t, int working);

/* Damages a table so that a refusal of this number is likely; others leave it. */
void table_damage(struct table *t, unsigned number);

/* The table as an STP text, damaged for the numbers that texts have; gives its length. */
size_t table_text(const struct table *t, unsigned number, uint8_t *text, size_t most);

/* The table as a planner's table file, with struck lines at the rows not in use; damaged so that it
   is refused with this number. Gives its length. */
size_t table_file(const struct table *t, unsigned number, uint8_t *text, size_t most);

#endif
