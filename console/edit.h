/* Changes to a table file: lines that are struck, left out, replaced, added, or that get another
   mark or price. All else stands as it did, comments, a byte order mark, names and the ends of
   lines too. What is to be written is read by star_read_table first, and written only where that
   gives the table that is meant. */
#ifndef CONSOLE_EDIT_H
#define CONSOLE_EDIT_H

#include "output.h"
#include "table.h"

/* What is changed in the line of a trench. */
enum change {
    CHANGE_NONE,
    CHANGE_STRUCK,   /* 'struck' is put before it */
    CHANGE_UNSTRUCK, /* 'struck' is taken away */
    CHANGE_MARK,     /* it gets the mark that the table has now, unless it is struck */
    CHANGE_PRICE     /* it gets the price that the table has now */
};

/* A trench that is entered, unmarked: its junctions as its line has them, and its price. */
struct entered {
    struct span end[2];
    uint8_t price[PRICE_BYTES];
};

struct edit {
    uint8_t change[STAR_MAX_ROWS]; /* trench i at index i - 1 */
    int merge;                     /* whether the lines of struck trenches are left out */
    size_t instead;                /* the trench whose line is replaced by the new one; 0: it is
                                      added */
    const struct entered *added;   /* the new trench, NULL for none */
    uint32_t n; /* what a line 'junctions N' says, where lines go and none says it yet */
};

/* Writes the table's file as it is after the changes, and closes the output: what is told of the
   changes after that is told of a file that was written. Gives a status of status.h. */
int edit_write(struct output *o, const struct table *t, const struct edit *e);

/* Writes the table with the marks that it has now: its file with these marks, or a new table where
   it was read from an STP file. */
int edit_marks(struct output *o, const struct table *t);

/* The names that no line has after the changes: marks each of them, and gives their number. */
size_t edit_lost(const struct table *t, const struct edit *e, uint8_t lost[STAR_MAX_NAMES]);

/* Whether the file after the changes would be refused, its plan apart; says so in words. What else
   is to be said of it is said to notes. */
int edit_refused(const struct table *t, const struct edit *e, struct message *words,
                 struct message *notes);

#endif
