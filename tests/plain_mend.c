#include "plain_mend.h"

#include <string.h>

static void record(struct star_record *list, size_t *count, uint32_t kind, size_t out, size_t in) {
    list[*count].kind = kind;
    list[*count].out = (uint32_t)out;
    list[*count].in = (uint32_t)in;
    ++*count;
}

/* The marked rows at each junction, as lists: first has the head, next the one after, by index of
   row and side. */
struct near {
    int first[STAR_MAX_JUNCTIONS + 1], next[2 * STAR_MAX_ROWS];
};

static void put_near(struct near *l, const struct rows *r, const uint8_t *mark) {
    size_t k;
    memset(l->first, -1, sizeof l->first);
    for (k = 0; k < r->m; k++)
        if (mark[r->row[k] - 1]) {
            l->next[2 * k] = l->first[r->a[k]];
            l->first[r->a[k]] = (int)(2 * k);
            l->next[2 * k + 1] = l->first[r->b[k]];
            l->first[r->b[k]] = (int)(2 * k + 1);
        }
}

/* The dearest row, by its index, the uppermost of them, on the way from one junction to another
   along marked rows; -1 where there is no way. */
static int dearest(const struct near *l, const struct rows *r, unsigned at, unsigned from,
                   unsigned to, int worst) {
    int e;
    if (at == to) return worst;
    for (e = l->first[at]; e >= 0; e = l->next[e]) {
        int k = e / 2, found, w = worst;
        unsigned other = e % 2 ? r->a[k] : r->b[k];
        if (other == from) continue;
        if (w < 0 || r->price[k] > r->price[w] || (r->price[k] == r->price[w] && k < w)) w = k;
        found = dearest(l, r, other, at, to, w);
        if (found >= 0) return found;
    }
    return -1;
}

size_t plain_mend(const struct rows *r, uint8_t *mark, struct star_record *list) {
    static struct near l;
    struct parts p;
    size_t k, count = 0;
    parts_start(&p);
    for (k = 0; k < r->m; k++)
        if (mark[r->row[k] - 1] && !parts_join(&p, r->a[k], r->b[k])) {
            mark[r->row[k] - 1] = 0;
            record(list, &count, STAR_DROPPED, r->row[k], 0);
        }
    for (k = 0; k < r->m; k++)
        if (parts_join(&p, r->a[k], r->b[k]) && !mark[r->row[k] - 1]) {
            mark[r->row[k] - 1] = 1;
            record(list, &count, STAR_ADDED, 0, r->row[k]);
        }
    put_near(&l, r, mark);
    for (k = 0; k < r->m; k++) {
        int worst;
        if (mark[r->row[k] - 1]) continue;
        worst = dearest(&l, r, r->a[k], 0, r->b[k], -1);
        if (worst < 0 || r->price[worst] <= r->price[k]) continue;
        mark[r->row[worst] - 1] = 0;
        mark[r->row[k] - 1] = 1;
        record(list, &count, STAR_EXCHANGED, r->row[worst], r->row[k]);
        put_near(&l, r, mark);
    }
    return count;
}
