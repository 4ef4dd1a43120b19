/* A network: its columns as the door takes them, and where in the file each trench stands. */
#ifndef CONSOLE_TABLE_H
#define CONSOLE_TABLE_H

#include <stdio.h>

#include "price.h"
#include "star.h"
#include "text.h"

/* The numbers of the longest list of steps. */
enum { RECORDS = 2 * STAR_MAX_ROWS };

struct table {
    const char *file; /* the file's name, for messages; NULL for none */
    uint32_t n;       /* junctions */
    size_t m;         /* trenches */
    uint8_t left[STAR_MAX_ROWS], right[STAR_MAX_ROWS];
    uint8_t weight[PRICE_BYTES * STAR_MAX_ROWS];
    uint8_t mark[STAR_MAX_ROWS];     /* 0 at a struck trench */
    uint8_t filed[STAR_MAX_ROWS];    /* the marks as the file has them */
    uint8_t struck[STAR_MAX_ROWS];   /* whether the trench is struck: then it keeps its number and
                                        is left out of everything */
    size_t strikes;                  /* struck trenches */
    struct place row[STAR_MAX_ROWS]; /* the line of each trench, without its comment */
    struct place count; /* the number in the line 'junctions N', else the largest junction named;
                           line 0 if there is neither */
    int told;           /* whether a line 'junctions N' stands in the file */
    size_t names;       /* names of junctions, 0 where they are numbers */
    struct span name[STAR_MAX_NAMES]; /* junction v at index v - 1 */
    struct span text;         /* the file, for the commands that change it or hand it to a door */
    size_t order_mark;        /* the bytes of a byte order mark, which stand before the text */
    int stp;                  /* whether the file is an STP text */
    struct star_file refused; /* what star_read_table answered where it refused the file */
};

/* Reads the planner's table that is the table's text, by star_read_table. Where lines cannot stand
   it says what is wrong with each of the first twenty, and that there are more. Gives a status of
   status.h: 0 if all is well, EXIT_REFUSED for too many trenches or names. */
int table_read(struct table *t, struct message *fault);

/* Writes the table anew by star_write_table, its fields parted by a byte: ' ', or ';' as
   spreadsheets have it, with a header and a byte order mark, which tells them that names are UTF-8.
   0 with words where the door refuses or there is no room. */
int table_write(FILE *to, const struct table *t, char by, struct message *fault);

/* The first trench in use after trench i; one more than there are trenches where there is none. The
   number of trenches in use. */
size_t table_next(const struct table *t, size_t i);
size_t table_used(const struct table *t);

/* The first junction from a number on that no trench in use names; 0 where each is named. */
uint32_t table_unnamed(const struct table *t, uint32_t from);

/* The doors, over the trenches in use of those that are kept. */
struct star_answer table_cst(const struct table *t);
struct star_answer table_other(const struct table *t);
struct star_answer table_mst1(struct table *t);

/* The exchange of two trenches of a plan that saves most, and the least total. */
struct best {
    struct star_answer answer;
    int64_t least;
};
struct best table_best(const struct table *t);

/* What is said of a plan: star_cst's answer, with star_best's exchange where a cheaper set
   exists. */
struct star_answer table_judged(const struct table *t);

struct star_answer table_paths(const struct table *t, uint32_t from, uint64_t *matrix,
                               size_t words);
struct star_quoted table_quote(const struct table *t, size_t i, const uint8_t price[PRICE_BYTES]);
struct star_answer table_breaking(const struct table *t, size_t i);

/* Writes the dig list of the table, or of the STP text that it was read from, and answers its
   length as the amount. */
struct star_answer table_digs(const struct table *t, uint8_t *text, size_t len);

/* The same of the marked trenches. */
struct star_answer table_plan_digs(const struct table *t, uint8_t *text, size_t len);

/* The smallest junction of each one's group, and the marked trenches that are on a ring, of any
   marks. The trench that each one is best exchanged with, 0 for none, of a plan that is a
   network. */
struct star_answer table_groups(const struct table *t, uint8_t groups[STAR_MAX_JUNCTIONS],
                                uint8_t rings[STAR_MAX_ROWS]);
struct star_answer table_detours(const struct table *t, uint32_t rows[STAR_MAX_ROWS]);

/* Which of two marked tables costs less: 1 the first, 2 the second, 0 none where one is refused.
   They are the same but for their marks. */
uint32_t table_which(const struct table *first, const struct table *second, struct star_answer *a);

/* The total of the marked trenches, a network or not; 0 where the door refuses. */
int64_t table_plan_total(const struct table *t);

/* The doors that make a plan, whose marks the table has afterwards: of at most eight districts,
   given by the numbers of their last trenches, with the trenches of each in forests; of any marks,
   with the steps; with exactly `count` trenches at a junction. */
struct star_answer table_districts(struct table *t, const uint32_t *ends, size_t count,
                                   uint8_t forests[STAR_MAX_ROWS]);
struct star_answer table_mend(struct table *t, struct star_record records[RECORDS]);
struct star_answer table_outlets(struct table *t, uint32_t junction, uint32_t count);

/* The doors that change a table, over a copy of it: numbers has 1,024. A struck trench is
   remembered in the table. An addition is asked for the place of the new trench, whatever its
   ends and price. */
struct star_answer table_strike(struct table *t, size_t i);
struct star_answer table_add(const struct table *t, uint32_t *numbers);
struct star_answer table_merge(const struct table *t, uint32_t *numbers);

/* Writes a line for each trench in use from one number to another that is marked 1 in a column, and
   gives the sum of their prices. */
int64_t table_list(FILE *to, const struct table *t, const uint8_t *mark, size_t from, size_t last);

/* Says a junction as the file has it, its name, cut where it is long, or its number; and the ends
   of trench i: '1-2', 'Rathaus - Markt'. */
void say_junction(struct message *to, const struct table *t, uint32_t v);
void say_ends(struct message *to, const struct table *t, size_t i);

/* The junction of a name; 0 where there is none. */
uint32_t table_named(const struct table *t, struct span name);

/* The number of marked trenches. */
size_t table_marks(const struct table *t);

/* The price of trench i, counted from 1; and the same written to figures. */
int64_t table_cost(const struct table *t, size_t i);
const char *table_price(char figures[FIGURES], const struct table *t, size_t i);

#endif
