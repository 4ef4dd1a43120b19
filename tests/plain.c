#include "plain.h"

#include <stdlib.h>
#include <string.h>

enum { MAX_N = 255, MAX_M = 1024 };

/* Two's complement: the last byte counts from -128 to 127. */
static int32_t price_of(const struct call *c, size_t i) {
    const uint8_t *w = c->weight + 4 * i;
    int32_t top = w[3] < 128 ? w[3] : w[3] - 256;
    return top * 16777216 + w[2] * 65536 + w[1] * 256 + w[0];
}

static void put(uint8_t *answer, unsigned kind, unsigned number, unsigned out, unsigned in,
                unsigned only, int64_t amount) {
    int i;
    memset(answer, 0, 16);
    answer[0] = (uint8_t)kind;
    answer[1] = (uint8_t)number;
    answer[2] = (uint8_t)out;
    answer[3] = (uint8_t)(out >> 8);
    answer[4] = (uint8_t)in;
    answer[5] = (uint8_t)(in >> 8);
    answer[6] = (uint8_t)only;
    for (i = 0; i < 8; i++) answer[8 + i] = (uint8_t)((uint64_t)amount >> (8 * i));
}

static int refuse(uint8_t *answer, unsigned number, size_t place) {
    put(answer, 0, number, (unsigned)place, 0, 0, 0);
    return 1;
}

/* Causes 1 to 4, and 15. */
static int bad_table(const struct call *c, uint8_t *answer) {
    size_t m = c->left_len, i, k;
    if (c->n == 0 || c->n > MAX_N) return refuse(answer, 1, 0);
    if (m > MAX_M) return refuse(answer, 2, 0);
    if (c->right_len != m || c->mark_len != m || c->weight_len != 4 * m)
        return refuse(answer, 3, 0);
    for (i = 0; i < m; i++) {
        unsigned a = c->left[i], b = c->right[i];
        if (a == 0 || b == 0 || a > c->n || b > c->n || a == b) return refuse(answer, 4, i + 1);
    }
    for (i = 0; i < m; i++)
        for (k = 0; k < i; k++)
            if ((c->left[i] == c->left[k] && c->right[i] == c->right[k]) ||
                (c->left[i] == c->right[k] && c->right[i] == c->left[k]))
                return refuse(answer, 15, i + 1);
    return 0;
}

static int root(int *up, int v) {
    while (up[v] != v) v = up[v] = up[up[v]];
    return v;
}

static const int32_t *sort_price;

static int by_price(const void *x, const void *y) {
    size_t a = *(const uint16_t *)x, b = *(const uint16_t *)y;
    if (sort_price[a] != sort_price[b]) return sort_price[a] < sort_price[b] ? -1 : 1;
    return a < b ? -1 : a > b;
}

size_t plain_tree(uint32_t n, const uint8_t *left, const uint8_t *right, const int32_t *price,
                  size_t m, uint8_t *mark) {
    uint16_t order[MAX_M];
    int up[MAX_N + 1];
    size_t i, chosen = 0;
    for (i = 0; i < m; i++) order[i] = (uint16_t)i;
    for (i = 0; i <= n; i++) up[i] = (int)i;
    sort_price = price;
    qsort(order, m, sizeof order[0], by_price);
    memset(mark, 0, m);
    for (i = 0; i < m; i++) {
        size_t r = order[i];
        int a = root(up, left[r]), b = root(up, right[r]);
        if (a == b) continue;
        up[a] = b;
        mark[r] = 1;
        chosen++;
    }
    return chosen;
}

uint32_t plain_mst1(const struct call *c, uint8_t *answer, size_t answer_len) {
    uint8_t mark[MAX_M];
    int32_t price[MAX_M] = {0};
    int64_t total = 0;
    size_t m = c->left_len, i;
    if (answer_len != 16) return 0;
    if (bad_table(c, answer)) return 1;
    for (i = 0; i < m; i++) price[i] = price_of(c, i);
    if (plain_tree(c->n, c->left, c->right, price, m, mark) != c->n - 1) {
        refuse(answer, 11, 0);
        return 1;
    }
    for (i = 0; i < m; i++) total += mark[i] ? price[i] : 0;
    if (m) memcpy(c->mark, mark, m);
    put(answer, 1, 0, 0, 0, 0, total);
    return 1;
}

/* Hangs the marked rows below vertex s: each vertex's parent, the row to it, and its depth (0: not
   reached). */
struct hung {
    int parent[MAX_N + 1], row[MAX_N + 1], depth[MAX_N + 1];
};

static void hang(const struct call *c, uint32_t s, struct hung *h) {
    int changed = 1;
    size_t i;
    memset(h, 0, sizeof *h);
    h->depth[s] = 1;
    while (changed) {
        changed = 0;
        for (i = 0; i < c->left_len; i++) {
            int turned = !h->depth[c->left[i]];
            int a = turned ? c->right[i] : c->left[i], b = turned ? c->left[i] : c->right[i];
            if (c->mark[i] != 1 || !h->depth[a] == !h->depth[b]) continue;
            h->parent[b] = a;
            h->row[b] = (int)i + 1;
            h->depth[b] = h->depth[a] + 1;
            changed = 1;
        }
    }
}

/* The rows on the path between two vertices. */
struct path {
    int heavier, equal;   /* the uppermost row heavier than w, and the uppermost of weight w; 0 for
                             none */
    unsigned long equals; /* how many have weight w */
};

static struct path path_of(const struct call *c, const struct hung *h, int a, int b, int32_t w) {
    struct path p = {0, 0, 0};
    while (a != b) {
        int *deeper = h->depth[a] < h->depth[b] ? &b : &a, r = h->row[*deeper];
        int32_t x = price_of(c, (size_t)r - 1);
        if (x > w && (!p.heavier || r < p.heavier)) p.heavier = r;
        if (x == w && (!p.equal || r < p.equal)) p.equal = r;
        p.equals += x == w;
        *deeper = h->parent[*deeper];
    }
    return p;
}

/* Causes 6, then 7 and 8 where there is a matrix, 9 and 10, for paths from s. */
static int bad_claim(const struct call *c, uint32_t s, size_t words, int matrix, struct hung *h,
                     uint8_t *answer) {
    size_t m = c->left_len, marks = 0, i;
    uint32_t v;
    for (i = 0; i < m; i++)
        if (c->mark[i] > 1) return refuse(answer, 6, i + 1);
    if (matrix && (s == 0 || s > c->n)) return refuse(answer, 7, 0);
    if (matrix && words < 16 * (size_t)c->n) return refuse(answer, 8, 0);
    for (i = 0; i < m; i++) marks += c->mark[i];
    if (marks + 1 != c->n) return refuse(answer, 9, 0);
    hang(c, s, h);
    for (v = 1; v <= c->n; v++)
        if (!h->depth[v]) return refuse(answer, 10, v);
    return 0;
}

/* CST; with `other`, the first exchange of equal weights too where there is one. */
static uint32_t judge(const struct call *c, int other, uint8_t *answer, size_t answer_len) {
    struct hung h;
    int64_t total = 0;
    unsigned long equals = 0;
    unsigned out = 0, in = 0;
    size_t m = c->left_len, i;
    if (answer_len != 16) return 0;
    if (bad_table(c, answer) || bad_claim(c, 1, 0, 0, &h, answer)) return 1;
    for (i = 0; i < m; i++) {
        struct path p;
        if (c->mark[i]) {
            total += price_of(c, i);
            continue;
        }
        p = path_of(c, &h, c->left[i], c->right[i], price_of(c, i));
        if (p.heavier) {
            put(answer, 2, 0, (unsigned)p.heavier, (unsigned)i + 1, 0,
                (int64_t)price_of(c, (size_t)p.heavier - 1) - price_of(c, i));
            return 1;
        }
        if (other && p.equal && !in) {
            out = (unsigned)p.equal;
            in = (unsigned)i + 1;
        }
        equals += p.equals;
    }
    put(answer, 1, 0, out, in, equals == 0, total);
    return 1;
}

uint32_t plain_total(const struct call *c, uint8_t *answer, size_t answer_len) {
    int64_t total = 0;
    size_t i;
    if (answer_len != 16) return 0;
    if (bad_table(c, answer)) return 1;
    for (i = 0; i < c->left_len; i++)
        if (c->mark[i] > 1) return (uint32_t)refuse(answer, 6, i + 1);
    for (i = c->left_len; i > 0; i--) total += c->mark[i - 1] ? price_of(c, i - 1) : 0;
    put(answer, 1, 0, 0, 0, 0, total);
    return 1;
}

uint32_t plain_cst(const struct call *c, uint8_t *answer, size_t answer_len) {
    return judge(c, 0, answer, answer_len);
}

uint32_t plain_other(const struct call *c, uint8_t *answer, size_t answer_len) {
    return judge(c, 1, answer, answer_len);
}

uint32_t plain_paths(const struct call *c, uint32_t s, uint64_t *matrix, size_t words,
                     uint8_t *answer, size_t answer_len) {
    struct hung h;
    uint32_t v;
    if (answer_len != 16) return 0;
    if (bad_table(c, answer) || bad_claim(c, s, words, 1, &h, answer)) return 1;
    memset(matrix, 0, 8 * 16 * (size_t)c->n);
    for (v = 1; v <= c->n; v++) {
        uint32_t a;
        for (a = v; a != s; a = (uint32_t)h.parent[a]) {
            size_t row = (size_t)h.row[a] - 1;
            matrix[16 * (v - 1) + row / 64] |= (uint64_t)1 << row % 64;
        }
    }
    put(answer, 1, 0, 0, 0, 0, 0);
    return 1;
}
