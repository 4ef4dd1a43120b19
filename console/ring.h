/* Marked trenches that are no network: the rings that they close, and the groups of junctions that
   they leave apart. */
#ifndef CONSOLE_RING_H
#define CONSOLE_RING_H

#include "json.h"

struct ring {
    unsigned row[STAR_MAX_JUNCTIONS + 1]; /* the trenches of one ring, in order */
    unsigned stop[STAR_MAX_JUNCTIONS +
                  1]; /* its junctions in order, the first of them once more at the end */
    size_t count;     /* trenches of this ring, 0 if there is none */
    unsigned closing[STAR_MAX_ROWS]; /* the marked trenches that each close a ring with others,
                                        which close none */
    size_t rings;                    /* how many there are */
    unsigned group[STAR_MAX_JUNCTIONS + 1]; /* the group of each junction; groups are counted from 1
                                               by their smallest junctions */
    size_t groups;                          /* 1 where marked trenches join all junctions */
    unsigned cut[STAR_MAX_JUNCTIONS]; /* the junctions outside the largest group, the first of those
                                         that are as large */
    size_t cuts;
};

/* Finds all of it, and the first ring; 0 where the doors refuse. */
int ring_of(struct ring *r, const struct table *t);

/* Ring k, counted from 0, of the table that ring_of was last asked about; 0 where the doors refuse.
 */
int ring_nth(struct ring *r, const struct table *t, size_t k);

/* '3 trenches are marked, and 4 junctions need 3: ..'. */
void ring_count(struct message *to, const struct table *t);

/* 'A ring: trenches 1, 2, 5 (1-2-3-1).' of the ring at hand, and what is to be done about it and
   others; nothing where there is none. */
void ring_words(struct message *to, const struct ring *r, const struct table *t);
void ring_advice(struct message *to, const struct ring *r);

/* 'junctions 1, 2, 3' of one group, and of all: 'Groups of junctions that stand apart: 1, 2, 3; 4.'
   The latter where there is more than one. */
void ring_group(struct message *to, const struct ring *r, const struct table *t, size_t group);
void ring_groups(struct message *to, const struct ring *r, const struct table *t);

/* Rings and groups, a line each; of many the first twenty unless all are asked for. */
void ring_tell(FILE *to, const struct table *t, int all);

/* All rings and groups, as lists of numbers. */
void ring_json(struct json *j, const struct table *t);

#endif
