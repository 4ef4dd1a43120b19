/* Where the junctions, trenches and labels of a picture stand. */
#ifndef CONSOLE_LAYOUT_H
#define CONSOLE_LAYOUT_H

#include "places.h"
#include "table.h"

/* A trench: a line from one end to the other, bent towards a third point; that point is the middle
   where the line is straight. */
struct curve {
    struct point from, bend, to;
    int heavy; /* whether it is drawn heavily: labels of light ones do not cover it, lest it look
                  dashed */
};

struct label {
    struct point at; /* its middle */
    double width;
    int shown; /* 0 where there is no room for it */
};

enum { LABEL_FONT = 11, LABEL_HEIGHT = 13, NAME_LETTERS = 18 };

struct layout {
    struct point at[STAR_MAX_JUNCTIONS + 1]; /* junction v at index v */
    struct curve trench[STAR_MAX_ROWS];      /* trench i at index i - 1, and so for labels */
    struct label label[STAR_MAX_ROWS];
    struct label name[STAR_MAX_JUNCTIONS + 1]; /* below junction v, where the file has names */
    double width, height, dot;                 /* dot: the radius of a junction */
    size_t rows[STAR_MAX_JUNCTIONS + 1];       /* the trenches in use at each junction */
};

/* Places junctions (places.h) and the trenches in use on a sheet. */
void layout_sheet(struct layout *l, const struct table *t);

/* Places the label of trench i, `letters` letters long, on the trench, or close beside it where
   there is no room. It covers no junction and no label already placed; no other trench if that can
   be had; a heavy one only where its own is heavy too. */
void layout_label(struct layout *l, const struct table *t, size_t i, size_t letters);

/* The name of a junction as pictures have it, shorter than in sentences. */
void layout_name(struct message *to, const struct table *t, uint32_t v);

/* A point of a curve: k from 0, its start, to 1, its end. */
struct point layout_on(const struct curve *c, double k);

#endif
