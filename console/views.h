/* Pictures in a page. A network is drawn once, and every view of it uses that drawing and lays its
   own lines over it. */
#ifndef CONSOLE_VIEWS_H
#define CONSOLE_VIEWS_H

#include "layout.h"

struct drawing {
    const struct table *t;
    const char *id; /* before the names of its parts */
    struct layout l;
};

/* A part of the sheet. */
struct box {
    double left, top, right, bottom;
};

/* Places a network on its sheet, and writes its parts where a page defines them. */
void drawing_place(struct drawing *g, const struct table *t, const char *id);
void drawing_define(FILE *to, const struct drawing *g);

/* The whole sheet; and the part around trenches and junctions that are added one by one to an empty
   box. Small sheets are shown whole. */
struct box box_whole(const struct drawing *g);
struct box box_empty(void);
void box_trench(struct box *b, const struct drawing *g, size_t i);
void box_junction(struct box *b, const struct drawing *g, unsigned v);
struct box box_shown(struct box b, const struct drawing *g);

/* Whether what is shown of a box is seen at one glance. */
int box_close(struct box b, const struct drawing *g);

/* A view: what it shows in words; its heavy lines, junctions, and labels; the drawing's own
   junctions and labels go between. */
void view_open(FILE *to, const struct drawing *g, struct box b, const char *name, const char *says);
void view_trench(FILE *to, const struct drawing *g, size_t i, const char *look);
void view_tops(FILE *to, const struct drawing *g);
void view_junction(FILE *to, const struct drawing *g, unsigned v, const char *look);
void view_label(FILE *to, const struct drawing *g, size_t i);
void view_close(FILE *to);

/* Letters of a text, those that mean something else in HTML and SVG written so that they do not;
   line ends as breaks. */
void html_text(FILE *to, const char *text);

/* The same for the value of an attribute, between double quotes. */
void html_value(FILE *to, const char *text);

#endif
