/* A random table as it is lent to star_write_table: its rows up to the last one in use, those that
 * are struck with ends of their own, and names of its junctions in a text, or none. */
#ifndef BACKENDS_SHEET_H
#define BACKENDS_SHEET_H

#include "table.h"

enum { SHEET_NAMES = 260, SHEET_TEXT = 16 * SHEET_NAMES };

struct sheet {
    size_t m, names, length, room; /* rows, names, the text's bytes, and those lent for the file */
    uint8_t left[TABLE_ROOM], right[TABLE_ROOM], mark[TABLE_ROOM], weight[4 * TABLE_ROOM];
    uint32_t from[SHEET_NAMES], to[SHEET_NAMES];
    uint8_t text[SHEET_TEXT], separator;
};

/* Makes one of a working table; it is damaged so that a refusal of this number is likely. */
void sheet_make(struct sheet *s, const struct table *t, unsigned number);

/* The bytes that are lent under a parameter's name, and how many; a null pointer where there are
 * none, or none that are read. */
const void *sheet_lent(const struct sheet *s, const char *name, size_t *length);

#endif
