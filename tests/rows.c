#include "rows.h"

#include <stdlib.h>
#include <string.h>

void parts_start(struct parts *p) {
    unsigned v;
    for (v = 0; v <= STAR_MAX_JUNCTIONS; v++) p->up[v] = v;
}

unsigned parts_root(struct parts *p, unsigned v) {
    while (p->up[v] != v) v = p->up[v] = p->up[p->up[v]];
    return v;
}

int parts_join(struct parts *p, unsigned a, unsigned b) {
    a = parts_root(p, a);
    b = parts_root(p, b);
    p->up[a] = b;
    return a != b;
}

static const int64_t *sort_price;

static int by_price(const void *x, const void *y) {
    int64_t a = sort_price[*(const size_t *)x], b = sort_price[*(const size_t *)y];
    return (a > b) - (a < b);
}

size_t rows_forest(const struct rows *r, size_t from, size_t to, uint8_t *chosen) {
    size_t order[STAR_MAX_ROWS], k, count = 0;
    struct parts p;
    for (k = from; k < to; k++) order[k - from] = k;
    sort_price = r->price;
    qsort(order, to - from, sizeof order[0], by_price);
    parts_start(&p);
    for (k = 0; k < to - from; k++) {
        size_t i = order[k];
        chosen[i] = (uint8_t)parts_join(&p, r->a[i], r->b[i]);
        count += chosen[i];
    }
    return count;
}

/* A part of a network: its rows up to index k. */
struct some {
    struct parts p;
    uint32_t taken, here;
    int64_t total;
};

struct asked {
    uint32_t n, at;
    const struct rows *r;
    network *each;
    void *with;
};

/* Goes through the rows from index k on: each is left, or taken where it closes no ring. */
static void go_on(const struct asked *q, size_t k, struct some s) {
    const struct rows *r = q->r;
    if (s.taken + 1 == q->n) {
        q->each(q->with, s.here, s.total);
        return;
    }
    if (r->m - k < q->n - 1 - s.taken) return;
    go_on(q, k + 1, s);
    if (!parts_join(&s.p, r->a[k], r->b[k])) return;
    s.taken++;
    s.here += r->a[k] == q->at || r->b[k] == q->at;
    s.total += r->price[k];
    go_on(q, k + 1, s);
}

void rows_networks(uint32_t n, const struct rows *r, uint32_t at, network *each, void *with) {
    struct asked q = {n, at, r, each, with};
    struct some none = {{{0}}, 0, 0, 0};
    parts_start(&none.p);
    go_on(&q, 0, none);
}
