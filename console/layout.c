/* Places a network on a sheet: its scale, the lines of its trenches, and its labels. */
#include "layout.h"

#include <math.h>
#include <stdlib.h>
#include <string.h>

enum { MARGIN = 60, NARROWEST = 420, WIDEST = 4000, LONG = 84 };

static struct point between(struct point a, struct point b, double k) {
    struct point p;
    p.x = a.x + (b.x - a.x) * k;
    p.y = a.y + (b.y - a.y) * k;
    return p;
}

struct point layout_on(const struct curve *c, double k) {
    return between(between(c->from, c->bend, k), between(c->bend, c->to, k), k);
}

static int by_size(const void *a, const void *b) {
    double x = *(const double *)a, y = *(const double *)b;
    return (x > y) - (x < y);
}

static void widen(struct point p, struct point *least, struct point *most) {
    if (p.x < least->x) least->x = p.x;
    if (p.x > most->x) most->x = p.x;
    if (p.y < least->y) least->y = p.y;
    if (p.y > most->y) most->y = p.y;
}

/* The corners of the rectangle around the junctions, and around the trenches too if these are
   placed. */
static void corners(const struct layout *l, const struct table *t, int trenches,
                    struct point *least, struct point *most) {
    uint32_t v;
    size_t i;
    *least = *most = l->at[1];
    for (v = 2; v <= t->n; v++) widen(l->at[v], least, most);
    for (i = table_next(t, 0); trenches && i <= t->m; i = table_next(t, i))
        widen(layout_on(&l->trench[i - 1], 0.5), least, most);
}

/* Whether a trench has two different junctions as ends; a struck one can have any. */
static int sound(const struct table *t, size_t i) {
    return t->left[i] >= 1 && t->left[i] <= t->n && t->right[i] >= 1 && t->right[i] <= t->n &&
           t->left[i] != t->right[i];
}

/* How much the places are enlarged: nine of ten trenches are as long as a label, a quarter of the
   sheet is enough for all labels, and no two junctions touch. */
static double scale_of(const struct layout *l, const struct table *t, double width, double height) {
    static double lengths[STAR_MAX_ROWS];
    double scale = t->n <= 24 ? 120 : 90, nearest = 1, need;
    uint32_t u, v;
    size_t i, used = 0;
    for (i = 0; i < t->m; i++)
        if (sound(t, i)) lengths[used++] = places_distance(l->at[t->left[i]], l->at[t->right[i]]);
    qsort(lengths, used, sizeof lengths[0], by_size);
    for (u = 1; u <= t->n; u++)
        for (v = u + 1; v <= t->n; v++)
            if (places_distance(l->at[u], l->at[v]) < nearest)
                nearest = places_distance(l->at[u], l->at[v]);
    if (used > 0 && scale * lengths[used / 10] < LONG) scale = LONG / (lengths[used / 10] + 1e-3);
    if (scale * nearest < 3 * l->dot) scale = 3 * l->dot / (nearest + 1e-3);
    need = 4 * (double)used * LONG * LABEL_HEIGHT;
    if (scale * scale * width * height < need && width > 0.5 && height > 0.5)
        scale = sqrt(need / (width * height));
    if (scale * width > WIDEST) scale = WIDEST / width;
    return scale * height > WIDEST ? WIDEST / height : scale;
}

/* Places the junctions, and gives how far each trench is bent. */
static void place(struct layout *l, const struct table *t, double bend[PLACES_ROWS]) {
    struct point least, most;
    double scale;
    uint32_t v;
    size_t i;
    if (!t->stp || !places_read(t->text.at, t->text.len, t->n, l->at) ||
        !places_given(t->n, (uint32_t)t->m, t->left, t->right, l->at))
        places_of(t->n, (uint32_t)t->m, t->left, t->right, l->at);
    places_bends(t->n, (uint32_t)t->m, t->left, t->right, l->at, bend);
    l->dot = t->n <= 24 ? 13 : 11;
    corners(l, t, 0, &least, &most);
    scale = scale_of(l, t, most.x - least.x, most.y - least.y);
    for (v = 1; v <= t->n; v++) {
        l->at[v].x *= scale;
        l->at[v].y *= scale;
    }
    for (i = 0; i < t->m; i++) bend[i] *= scale;
}

static void shift(struct point *p, double x, double y) {
    p->x += x;
    p->y += y;
}

/* Moves all to where the sheet, whose corner is 0, has it with a margin. */
static void fit(struct layout *l, const struct table *t) {
    struct point least, most;
    double x, y;
    uint32_t v;
    size_t i;
    corners(l, t, 1, &least, &most);
    l->width = most.x - least.x + 2 * MARGIN;
    l->height = most.y - least.y + 2 * MARGIN;
    if (l->width < NARROWEST) l->width = NARROWEST;
    x = l->width / 2 - (least.x + most.x) / 2;
    y = MARGIN - least.y;
    for (v = 1; v <= t->n; v++) shift(&l->at[v], x, y);
    for (i = 0; i < t->m; i++) {
        shift(&l->trench[i].from, x, y);
        shift(&l->trench[i].bend, x, y);
        shift(&l->trench[i].to, x, y);
    }
}

/* The line of a trench, its middle moved aside by `aside`, to the right as seen from its left
   end. */
static struct curve line_of(const struct layout *l, const struct table *t, size_t i, double aside) {
    struct curve c;
    double d;
    c.heavy = 0;
    c.from = l->at[t->left[i]];
    c.to = l->at[t->right[i]];
    d = places_distance(c.from, c.to);
    c.bend = between(c.from, c.to, 0.5);
    if (d > 1e-6) {
        c.bend.x += 2 * aside * (c.from.y - c.to.y) / d;
        c.bend.y += 2 * aside * (c.to.x - c.from.x) / d;
    }
    return c;
}

void layout_name(struct message *to, const struct table *t, uint32_t v) {
    struct span name = t->name[v - 1], rest = name;
    size_t letters, len;
    for (letters = 0; rest.len > 0 && letters < NAME_LETTERS; letters++) {
        len = text_letter(rest);
        if (len == 0) len = 1;
        rest.at += len;
        rest.len -= len;
    }
    name.len -= rest.len;
    say_word(to, name);
    if (rest.len > 0) say(to, "..");
}

/* Names stand below their junctions. */
static void place_names(struct layout *l, const struct table *t) {
    uint32_t v;
    for (v = 1; v <= t->names && v <= t->n; v++) {
        struct message name = {{0}, 0};
        layout_name(&name, t, v);
        l->name[v].at.x = l->at[v].x;
        l->name[v].at.y = l->at[v].y + l->dot + LABEL_HEIGHT / 2.0;
        l->name[v].width = (double)name.len * LABEL_FONT * 0.55;
        l->name[v].shown = 1;
    }
}

void layout_sheet(struct layout *l, const struct table *t) {
    static double bend[PLACES_ROWS];
    size_t i;
    memset(l, 0, sizeof *l);
    place(l, t, bend);
    for (i = table_next(t, 0); i <= t->m; i = table_next(t, i)) {
        l->trench[i - 1] = line_of(l, t, i - 1, bend[i - 1]);
        l->rows[t->left[i - 1]]++;
        l->rows[t->right[i - 1]]++;
    }
    fit(l, t);
    place_names(l, t);
}
