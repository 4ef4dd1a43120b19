#include "plain_groups.h"

#include <string.h>

unsigned plain_groups(uint32_t n, const struct rows *r, const uint8_t *marked, uint8_t *groups) {
    struct parts p;
    unsigned count = 0, v, u;
    size_t k;
    parts_start(&p);
    for (k = 0; k < r->m; k++)
        if (marked[k]) parts_join(&p, r->a[k], r->b[k]);
    for (v = 1; v <= n; v++) {
        for (u = 1; parts_root(&p, u) != parts_root(&p, v); u++) continue;
        groups[v - 1] = (uint8_t)u;
        count += u == v;
    }
    return count;
}

/* A search from one junction after another, in depth. met is the number at which a junction was
   met, low the least number that it or what was met from it reaches by a row that was not gone
   along. A row gone along closes no ring where nothing beyond it reaches back past its far end. */
struct search {
    const struct rows *r;
    const uint8_t *marked;
    uint8_t *rings;
    unsigned met[STAR_MAX_JUNCTIONS + 1], low[STAR_MAX_JUNCTIONS + 1], number;
};

static void reach(struct search *s, unsigned from, unsigned number) {
    if (number < s->low[from]) s->low[from] = number;
}

static void go(struct search *s, unsigned from, size_t by) {
    size_t k;
    s->met[from] = s->low[from] = ++s->number;
    for (k = 0; k < s->r->m; k++) {
        unsigned a = s->r->a[k], b = s->r->b[k], to = a == from ? b : a;
        if (!s->marked[k] || k == by || (a != from && b != from)) continue;
        if (s->met[to]) {
            reach(s, from, s->met[to]);
            continue;
        }
        go(s, to, k);
        reach(s, from, s->low[to]);
        if (s->low[to] > s->met[from]) s->rings[k] = 0;
    }
}

unsigned plain_rings(uint32_t n, const struct rows *r, const uint8_t *marked, uint8_t *rings) {
    struct search s;
    unsigned count = 0, v;
    size_t k;
    memset(&s, 0, sizeof s);
    s.r = r;
    s.marked = marked;
    s.rings = rings;
    for (k = 0; k < r->m; k++) rings[k] = marked[k];
    for (v = 1; v <= n; v++)
        if (!s.met[v]) go(&s, v, STAR_MAX_ROWS);
    for (k = 0; k < r->m; k++) count += rings[k];
    return count;
}
