/* Ways over the trenches of a plan that is a network: between two junctions, and around a trench
   that is left out. The door star_paths gives the trenches of them. */
#ifndef CONSOLE_DETOUR_H
#define CONSOLE_DETOUR_H

#include "table.h"

/* What star_paths gives from one junction; `from` is 0 before it was asked. Beside each trench what
   star_detours gives. */
struct paths {
    uint32_t from;
    uint32_t beside[STAR_MAX_ROWS + 1];
    uint64_t matrix[STAR_COLUMN_WORDS * STAR_MAX_JUNCTIONS];
};

/* How a trench that is left out stands to the dearest one of its detour. */
enum standing { CHEAPER, EQUAL, DEARER, STANDINGS };

struct detour {
    unsigned row[STAR_MAX_JUNCTIONS];      /* the trenches in order, from the left end to the right
                                              one, or from one junction to the other */
    unsigned stop[STAR_MAX_JUNCTIONS + 1]; /* the junctions between them, both ends included: one
                                              more than trenches */
    size_t count;                          /* trenches */
    unsigned dearest;                      /* the dearest trench, the uppermost among equals */
    int64_t sum;
    enum standing standing; /* of a way around a trench alone */
};

/* Asks the door for the paths from a junction, unless it was the last one asked for; 0 if the door
   refuses. */
int paths_from(struct paths *p, const struct table *t, uint32_t from);

/* The way between two different junctions; 0 if the door refuses. */
int way_between(struct detour *d, struct paths *p, const struct table *t, uint32_t from,
                uint32_t to);

/* The detour of trench i, counted from 1, whose dearest trench is the door's; 0 if a door
 * refuses. */
int detour_of(struct detour *d, struct paths *p, const struct table *t, size_t i);

/* 'trenches 4, 3, 2' and '1-4-3-2', or 'Rathaus - Hof - Markt', cut where they are long. */
void detour_rows(struct message *to, const unsigned *row, size_t count);
void detour_stops(struct message *to, const struct table *t, const unsigned *stop, size_t count);

/* What the comparison comes to: '5 = 5: the exchange gives another network of 12, equal, no
   contradiction'. total is the plan's. */
void detour_compared(struct message *to, const struct table *t, size_t i, const struct detour *d,
                     int64_t total);

#endif
