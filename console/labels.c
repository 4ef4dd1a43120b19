/* Places labels on trenches. */
#include <math.h>

#include "layout.h"

enum { PIECES = 8, PARTS = 13, MANY = 12 };

static int labels_touch(const struct label *a, const struct label *b) {
    return fabs(a->at.x - b->at.x) < (a->width + b->width) / 2 + 2 &&
           fabs(a->at.y - b->at.y) < LABEL_HEIGHT + 1;
}

/* Whether a label covers a part of a disc. */
static int covers(const struct label *a, struct point p, double radius) {
    double dx = fabs(a->at.x - p.x) - a->width / 2, dy = fabs(a->at.y - p.y) - LABEL_HEIGHT / 2.0;
    if (dx < 0) dx = 0;
    if (dy < 0) dy = 0;
    return dx * dx + dy * dy < radius * radius;
}

/* Narrows the part of a line, from *first to *last of its length, to where start + k * step lies
   between -reach and reach. */
static int narrow(double start, double step, double reach, double *first, double *last) {
    double a = (-reach - start) / step, b = (reach - start) / step;
    if (fabs(step) < 1e-9) return fabs(start) <= reach;
    if (a > b) {
        double c = a;
        a = b;
        b = c;
    }
    if (a > *first) *first = a;
    if (b < *last) *last = b;
    return *first <= *last;
}

/* Whether a label covers a part of a trench, taken as straight pieces. */
static int crossed(const struct label *a, const struct curve *c) {
    int k;
    for (k = 0; k < PIECES; k++) {
        struct point p = layout_on(c, (double)k / PIECES),
                     q = layout_on(c, (double)(k + 1) / PIECES);
        double first = 0, last = 1;
        if (narrow(p.x - a->at.x, q.x - p.x, a->width / 2 + 1, &first, &last) &&
            narrow(p.y - a->at.y, q.y - p.y, LABEL_HEIGHT / 2.0 + 1, &first, &last))
            return 1;
    }
    return 0;
}

/* What a label of some trench may cover: nothing of another one; light ones; any. */
enum cover { NONE, LIGHT, ANY };

static int free_of(const struct layout *l, const struct table *t, size_t i, enum cover may) {
    const struct label *own = &l->label[i - 1];
    size_t k;
    uint32_t v;
    if (own->at.x < own->width / 2 || own->at.x > l->width - own->width / 2) return 0;
    for (v = 1; v <= t->n; v++)
        if (covers(own, l->at[v], l->dot + 1) ||
            (l->name[v].shown && labels_touch(own, &l->name[v])))
            return 0;
    for (k = table_next(t, 0); k <= t->m; k = table_next(t, k)) {
        if (l->label[k - 1].shown && labels_touch(own, &l->label[k - 1])) return 0;
        if (k != i && (may == NONE || (may == LIGHT && l->trench[k - 1].heavy)) &&
            crossed(own, &l->trench[k - 1]))
            return 0;
    }
    return 1;
}

/* Puts a label on its trench, or beside it: to the left (-1) or to the right (1), or further there
   (-2, 2). */
static void put(struct label *own, const struct curve *c, double along, int side) {
    double dx = c->to.x - c->from.x, dy = c->to.y - c->from.y, d = sqrt(dx * dx + dy * dy) + 1e-6,
           by;
    by = side * (fabs(dy / d) * own->width / 2 + fabs(dx / d) * LABEL_HEIGHT / 2 + 3);
    own->at = layout_on(c, along);
    own->at.x -= by * dy / d;
    own->at.y += by * dx / d;
}

/* Part k of a trench's length at which its label may stand: about its middle, and away from a
   junction of many trenches. */
static double part(const struct layout *l, const struct table *t, size_t i, size_t k) {
    static const double middle[PARTS] = {0.5, 0.45, 0.55, 0.4,  0.6, 0.35, 0.65,
                                         0.3, 0.7,  0.25, 0.75, 0.2, 0.8};
    static const double away[PARTS] = {0.8, 0.75, 0.85, 0.7,  0.65, 0.6, 0.55,
                                       0.5, 0.45, 0.4,  0.35, 0.3,  0.25};
    size_t left = l->rows[t->left[i - 1]], right = l->rows[t->right[i - 1]];
    if ((left < MANY && right < MANY) || left == right) return middle[k];
    return left > right ? away[k] : 1 - away[k];
}

void layout_label(struct layout *l, const struct table *t, size_t i, size_t letters) {
    static const struct {
        int side;
        enum cover may;
    } ways[] = {{0, NONE}, {0, LIGHT}, {1, NONE},  {-1, NONE},  {0, ANY}, {1, LIGHT}, {-1, LIGHT},
                {1, ANY},  {-1, ANY},  {2, LIGHT}, {-2, LIGHT}, {2, ANY}, {-2, ANY}};
    size_t count = l->trench[i - 1].heavy ? sizeof ways / sizeof ways[0]
                                          : 4; /* the last ways are for heavy trenches */
    struct label *own = &l->label[i - 1];
    size_t way, k;
    own->width = (double)letters * LABEL_FONT * 0.62 + 3;
    for (way = 0; way < count; way++)
        for (k = 0; k < PARTS; k++) {
            put(own, &l->trench[i - 1], part(l, t, i, k), ways[way].side);
            if (!free_of(l, t, i, ways[way].may)) continue;
            own->shown = 1;
            return;
        }
}
