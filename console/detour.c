/* Detours: a door gives the set of trenches and another the dearest of each; here they are put in
   order, added up and compared. */
#include "detour.h"

enum { SHOWN = 12 };

int paths_from(struct paths *p, const struct table *t, uint32_t from) {
    if (p->from == from) return 1;
    p->from =
        table_paths(t, from, p->matrix, sizeof p->matrix / sizeof p->matrix[0]).kind == STAR_PASSED
            ? from
            : 0;
    return p->from == from;
}

/* The trench of the set that leads on from a junction, other than the one that led there; 0 if
   there is none. */
static size_t next(const struct paths *p, const struct table *t, uint32_t to, unsigned at,
                   size_t last) {
    size_t i;
    for (i = table_next(t, 0); i <= t->m; i = table_next(t, i))
        if (i != last && star_on_path(p->matrix, to, i) &&
            (t->left[i - 1] == at || t->right[i - 1] == at))
            return i;
    return 0;
}

int way_between(struct detour *d, struct paths *p, const struct table *t, uint32_t from,
                uint32_t to) {
    unsigned at = from;
    size_t row = 0;
    if (!paths_from(p, t, from)) return 0;
    d->count = 0;
    d->sum = 0;
    d->dearest = 0;
    d->stop[0] = at;
    while (d->count + 1 < t->n && (row = next(p, t, to, at, row)) != 0) {
        at = t->left[row - 1] == at ? t->right[row - 1] : t->left[row - 1];
        d->row[d->count++] = (unsigned)row;
        d->stop[d->count] = at;
        d->sum += table_cost(t, row);
        if (!d->dearest || table_cost(t, row) > table_cost(t, d->dearest) ||
            (table_cost(t, row) == table_cost(t, d->dearest) && row < d->dearest))
            d->dearest = (unsigned)row;
    }
    return d->count > 0 && at == to;
}

int detour_of(struct detour *d, struct paths *p, const struct table *t, size_t i) {
    int64_t own, dearest;
    if (p->from == 0 && table_detours(t, p->beside).kind != STAR_PASSED) return 0;
    if (!way_between(d, p, t, t->left[i - 1], t->right[i - 1])) return 0;
    d->dearest = p->beside[i - 1];
    own = table_cost(t, i);
    dearest = table_cost(t, d->dearest);
    if (own == dearest) d->standing = EQUAL;
    else d->standing = own < dearest ? CHEAPER : DEARER;
    return 1;
}

void detour_rows(struct message *to, const unsigned *row, size_t count) {
    size_t k;
    say(to, count == 1 ? "trench " : "trenches ");
    for (k = 0; k < count && k < SHOWN; k++) say(to, "%s%u", k > 0 ? ", " : "", row[k]);
    if (k < count) say(to, " and %zu more", count - k);
}

void detour_stops(struct message *to, const struct table *t, const unsigned *stop, size_t count) {
    const char *between = t->names > 0 ? " - " : "-";
    size_t k;
    for (k = 0; k < count; k++)
        if (count <= SHOWN + 1 || k < SHOWN - 1 || k + 1 == count) {
            if (k > 0) say(to, "%s", between);
            say_junction(to, t, stop[k]);
        } else if (k == SHOWN - 1) say(to, "%s..", between);
}

void detour_compared(struct message *to, const struct table *t, size_t i, const struct detour *d,
                     int64_t total) {
    static const char *const sign[STANDINGS] = {"<", "=", ">"};
    int64_t own = table_cost(t, i), dearest = table_cost(t, d->dearest);
    char figures[3][FIGURES];
    say(to, "%s %s %s: ", amount_figures(figures[0], own), sign[d->standing],
        amount_figures(figures[1], dearest));
    amount_figures(figures[2], total - dearest + own);
    if (d->standing == EQUAL)
        say(to, "the exchange gives another network of %s, equal, no contradiction", figures[2]);
    else if (d->standing == CHEAPER)
        say(to, "the exchange gives a network of %s, for %s less", figures[2],
            amount_figures(figures[0], dearest - own));
    else
        say(to, "the exchange would give a network of %s, for %s more, so it stays out", figures[2],
            amount_figures(figures[0], own - dearest));
}
