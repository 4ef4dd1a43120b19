#include "plain_outlets.h"

#include <stdlib.h>

static int is_at(const struct rows *r, size_t k, uint32_t at) {
    return r->a[k] == at || r->b[k] == at;
}

struct wanted {
    uint32_t t;
    struct outlets best;
};

static void take(void *with, unsigned here, int64_t total) {
    struct wanted *w = with;
    if (here != w->t || (w->best.exists && w->best.total <= total)) return;
    w->best.exists = 1;
    w->best.total = total;
}

struct outlets outlets_listed(uint32_t n, const struct rows *r, uint32_t at, uint32_t t) {
    struct wanted w = {t, {0, 0}};
    rows_networks(n, r, at, take, &w);
    return w.best;
}

/* The least network with a number added to the prices at a junction: its total without what was
   added, and its rows there. Among equal prices the rows at the junction go first, or last. */
struct shifted {
    int64_t total;
    uint32_t here;
};

static int64_t key[STAR_MAX_ROWS];
static int last_at[STAR_MAX_ROWS];

static int by_key(const void *x, const void *y) {
    size_t a = *(const size_t *)x, b = *(const size_t *)y;
    if (key[a] != key[b]) return key[a] < key[b] ? -1 : 1;
    return last_at[a] - last_at[b];
}

static struct shifted shift(const struct rows *r, uint32_t at, int64_t by, int at_first) {
    struct shifted s = {0, 0};
    size_t order[STAR_MAX_ROWS], k;
    struct parts p;
    for (k = 0; k < r->m; k++) {
        order[k] = k;
        key[k] = r->price[k] + (is_at(r, k, at) ? by : 0);
        last_at[k] = is_at(r, k, at) != at_first;
    }
    qsort(order, r->m, sizeof order[0], by_key);
    parts_start(&p);
    for (k = 0; k < r->m; k++)
        if (parts_join(&p, r->a[order[k]], r->b[order[k]])) {
            s.total += r->price[order[k]];
            s.here += (uint32_t)is_at(r, order[k], at);
        }
    return s;
}

struct outlets outlets_shifted(const struct rows *r, uint32_t at, uint32_t t) {
    const int64_t far = (int64_t)1 << 33; /* above every difference of two prices */
    struct outlets found = {0, 0};
    struct shifted s;
    int64_t low = -far, high = far;
    if (t > shift(r, at, low, 1).here || t < shift(r, at, high, 0).here) return found;
    while (low < high) { /* the least number added at which a least network has at most t rows
                            there */
        int64_t middle = low + (high - low) / 2;
        if (shift(r, at, middle, 0).here <= t) high = middle;
        else low = middle + 1;
    }
    s = shift(r, at, low, 0);
    found.exists = 1;
    /* equal with the number added; t is at most what rows at r first give */
    found.total = s.total - low * ((int64_t)t - s.here);
    if (shift(r, at, low, 1).here < t) found.exists = -1; /* cannot be */
    return found;
}
