#include "plain_detours.h"

#include <string.h>

enum { NONE = STAR_MAX_ROWS };

/* The index of the row from each junction towards junction 1, and how many rows lie between. */
struct towards_1 {
    size_t up[STAR_MAX_JUNCTIONS + 1], far[STAR_MAX_JUNCTIONS + 1];
};

static unsigned other_end(const struct rows *r, size_t k, unsigned v) {
    return r->a[k] == v ? r->b[k] : r->a[k];
}

static void find_parents(const struct rows *r, const uint8_t *mark, struct towards_1 *t) {
    uint8_t seen[STAR_MAX_JUNCTIONS + 1] = {0};
    size_t k;
    int more = 1;
    seen[1] = 1;
    t->up[1] = NONE;
    t->far[1] = 0;
    while (more)
        for (more = 0, k = 0; k < r->m; k++) {
            unsigned v;
            if (!mark[r->row[k] - 1] || seen[r->a[k]] == seen[r->b[k]]) continue;
            v = seen[r->a[k]] ? r->b[k] : r->a[k];
            t->up[v] = k;
            t->far[v] = t->far[other_end(r, k, v)] + 1;
            seen[v] = 1;
            more = 1;
        }
}

/* Whether the row at an index goes before another: more to pay, or above it. */
static int dearer(const struct rows *r, size_t k, size_t than) {
    if (than == NONE || r->price[k] != r->price[than])
        return than == NONE || r->price[k] > r->price[than];
    return k < than;
}

static uint32_t dearest(const struct rows *r, const struct towards_1 *t, size_t k) {
    unsigned a = r->a[k], b = r->b[k];
    size_t found = NONE;
    while (a != b) {
        unsigned *v = t->far[a] >= t->far[b] ? &a : &b;
        size_t row = t->up[*v];
        if (dearer(r, row, found)) found = row;
        *v = other_end(r, row, *v);
    }
    return (uint32_t)r->row[found];
}

static uint32_t replacement(const struct rows *r, const uint8_t *mark, size_t gone) {
    struct parts p;
    size_t k, found = NONE;
    parts_start(&p);
    for (k = 0; k < r->m; k++)
        if (mark[r->row[k] - 1] && k != gone) parts_join(&p, r->a[k], r->b[k]);
    for (k = 0; k < r->m; k++) {
        if (mark[r->row[k] - 1] || parts_root(&p, r->a[k]) == parts_root(&p, r->b[k])) continue;
        if (found == NONE || r->price[k] < r->price[found]) found = k;
    }
    return found == NONE ? 0 : (uint32_t)r->row[found];
}

void plain_detours(const struct rows *r, const uint8_t *mark, uint32_t *beside, size_t m) {
    static struct towards_1 t;
    size_t k;
    memset(beside, 0, m * sizeof *beside);
    find_parents(r, mark, &t);
    for (k = 0; k < r->m; k++)
        beside[r->row[k] - 1] = mark[r->row[k] - 1] ? replacement(r, mark, k) : dearest(r, &t, k);
}

struct saving plain_best(const struct rows *r, const uint8_t *mark) {
    struct saving best = {0, 0, 0};
    size_t e, f;
    for (e = 0; e < r->m; e++) {
        struct parts p;
        if (!mark[r->row[e] - 1]) continue;
        parts_start(&p);
        for (f = 0; f < r->m; f++)
            if (mark[r->row[f] - 1] && f != e) parts_join(&p, r->a[f], r->b[f]);
        for (f = 0; f < r->m; f++) {
            uint32_t out = (uint32_t)r->row[e], in = (uint32_t)r->row[f];
            int64_t saved = r->price[e] - r->price[f];
            if (mark[in - 1] || parts_root(&p, r->a[f]) == parts_root(&p, r->b[f])) continue;
            if (saved < best.saved || saved <= 0) continue;
            if (saved == best.saved && (in > best.in || (in == best.in && out > best.out)))
                continue;
            best.out = out;
            best.in = in;
            best.saved = saved;
        }
    }
    return best;
}
