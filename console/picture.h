/* Pictures of a network. */
#ifndef CONSOLE_PICTURE_H
#define CONSOLE_PICTURE_H

#include "layout.h"
#include "table.h"

/* A table that the door takes, and what is said of it. */
struct picture {
    const struct table *t;
    unsigned out, in;     /* the trenches of the exchange, 0 for none */
    struct message words; /* the verdict */
    int refused;          /* whether that is a refusal, which stands in a box of its own colour */
};

/* How a trench is drawn: the four kinds share their colours and widths among the pictures. */
enum look { OTHER, MARKED, TAKE_OUT, PUT_IN, LOOKS };

struct style {
    const char *name, *colour, *width, *says;
};

extern const struct style STYLES[LOOKS];

/* How trench i, counted from 1, is drawn. */
enum look picture_look(const struct picture *p, size_t i);

/* The label of trench i, its number and its price; gives the letters of it. */
size_t picture_label(char *text, size_t room, const struct table *t, size_t i);

/* Places a network with its labels, those of the exchange first and those of trenches that are not
   marked last; gives the number that found no room. */
size_t picture_place(struct layout *l, const struct picture *p);

/* Junction v with its number, or with its name below it. The style of such names. */
void picture_junction(FILE *to, const struct layout *l, const struct table *t, uint32_t v);
#define PICTURE_NAMES \
    ".place{font-size:11px;text-anchor:middle;fill:#222;paint-order:stroke;stroke:#fff;" \
    "stroke-width:3px}"

/* Letters as SVG and HTML have them, where some mean something else. */
void picture_letters(FILE *to, const char *text, size_t len);

void picture_svg(FILE *to, const struct picture *p);
void picture_dot(FILE *to, const struct picture *p);

#endif
