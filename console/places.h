/* Where the junctions of a network stand, and how its trenches are bent. The console and the page
   use this code and no other (page/module.sh compiles it into the page's module), so that both draw
   one picture: it needs no C library, and of mathematics only the square root, which every machine
   rounds alike. */
#ifndef CONSOLE_PLACES_H
#define CONSOLE_PLACES_H

#include <stddef.h>
#include <stdint.h>

enum { PLACES_JUNCTIONS = 255, PLACES_ROWS = 1025 };

struct point {
    double x, y;
};

/* Trenches by the junctions that they join. One whose ends are not two different junctions from 1
   to n, as those of a struck one may be, counts for nothing. */
struct ends {
    uint32_t n, m;
    const uint8_t *left, *right;
};

/* Places junction v at index v, so that a usual trench is about 1 long. It depends on which
   junctions the trenches join, struck ones included, and on nothing else, so that two plans of one
   network, or two quotes, lie alike, and a network lies as it did before a trench was struck. */
void places_of(uint32_t n, uint32_t m, const uint8_t *left, const uint8_t *right, struct point *at);

/* The same for junctions with coordinates of their own, which stand in `at` with y upwards: gives
   0, and leaves them, where two junctions have the same. */
int places_given(uint32_t n, uint32_t m, const uint8_t *left, const uint8_t *right,
                 struct point *at);

/* How far the middle of each trench is moved aside so that its line runs over no junction, to the
   right as seen from its left end; 0 where it is straight. Trench i at index i - 1. */
void places_bends(uint32_t n, uint32_t m, const uint8_t *left, const uint8_t *right,
                  const struct point *at, double *bend);

/* The coordinates in an STP text; 0 unless each junction has them. */
int places_read(const char *text, size_t len, uint32_t n, struct point *at);

/* Whether trench i, counted from 0, joins two different junctions. */
int places_sound(const struct ends *e, uint32_t i);

double places_root(double x);
double places_distance(struct point a, struct point b);

/* The junctions beside each one: those beside v are list[first[v]] up to, and without,
   list[first[v + 1]]. */
struct beside {
    uint16_t first[PLACES_JUNCTIONS + 2];
    uint8_t list[2 * PLACES_ROWS];
};

/* A network whose shape is known gets it: 0 for any other. */
int places_shape(const struct ends *e, const struct beside *b, struct point *at);

#endif
