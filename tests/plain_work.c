#include "plain_work.h"

#include <string.h>

enum { ROWS = 1024, WORDS = 16 };

static uint32_t put(uint8_t *answer, unsigned kind, unsigned number, unsigned amount) {
    memset(answer, 0, 16);
    answer[0] = (uint8_t)kind;
    answer[1] = (uint8_t)number;
    answer[8] = (uint8_t)amount;
    answer[9] = (uint8_t)(amount >> 8);
    return 1;
}

static uint32_t refuse(uint8_t *answer, unsigned number) { return put(answer, 0, number, 0); }

/* Row i, counted from 1; one that is not there is not in use. */
static int used(struct in_use u, size_t i) {
    return i >= 1 && i <= ROWS && (i - 1) / 64 < u.count &&
           (u.words[(i - 1) / 64] >> (i - 1) % 64) % 2 == 1;
}

static int wrong_columns(struct in_use u, const struct call *c) {
    return u.count != WORDS || c->left_len != ROWS || c->right_len != ROWS ||
           c->weight_len != 4 * ROWS;
}

/* A table of the rows in use alone, and where each of them stands. */
struct part {
    struct call c;
    uint8_t left[ROWS], right[ROWS], weight[4 * ROWS], mark[ROWS];
    unsigned row[ROWS];
};

static void take(struct part *p, struct in_use u, const struct call *c) {
    size_t i, m = 0;
    for (i = 1; i <= ROWS; i++)
        if (used(u, i)) {
            p->row[m] = (unsigned)i;
            p->left[m] = c->left[i - 1];
            p->right[m] = c->right[i - 1];
            p->mark[m] = c->mark[i - 1];
            memcpy(p->weight + 4 * m++, c->weight + 4 * (i - 1), 4);
        }
    p->c = (struct call){c->n, p->left, p->right, p->weight, p->mark, m, m, 4 * m, m};
}

/* The table of the rows in use, unless the number of junctions or a length is wrong: then 0, and
   the answer has the refusal. */
static int part_of(struct part *p, struct in_use u, const struct call *c, uint8_t *answer) {
    if (c->n == 0 || c->n > 255) return !refuse(answer, 1);
    if (wrong_columns(u, c) || c->mark_len != ROWS) return !refuse(answer, 3);
    take(p, u, c);
    return 1;
}

/* A row that an answer names, at the place where it stands. */
static void name(const struct part *p, uint8_t *bytes) {
    unsigned i = bytes[0] + 256u * bytes[1];
    if (i == 0) return;
    bytes[0] = (uint8_t)p->row[i - 1];
    bytes[1] = (uint8_t)(p->row[i - 1] >> 8);
}

/* The answer over the table of rows in use becomes that over the working table: the places of 4, 6
   and 15 are rows, and so are out and in. */
static void renumber(const struct part *p, uint8_t *answer) {
    if (answer[0] == 0 && answer[1] != 4 && answer[1] != 6 && answer[1] != 15) return;
    name(p, answer + 2);
    name(p, answer + 4);
}

/* One of the plain judges, over the rows in use. */
static uint32_t judge(uint32_t (*plain)(const struct call *, uint8_t *, size_t), struct in_use u,
                      const struct call *c, uint8_t *answer, size_t answer_len) {
    static struct part p;
    if (answer_len != 16) return 0;
    if (!part_of(&p, u, c, answer)) return 1;
    plain(&p.c, answer, 16);
    renumber(&p, answer);
    return 1;
}

uint32_t plain_work_cst(struct in_use u, const struct call *c, uint8_t *answer, size_t answer_len) {
    return judge(plain_cst, u, c, answer, answer_len);
}

uint32_t plain_work_other(struct in_use u, const struct call *c, uint8_t *answer,
                          size_t answer_len) {
    return judge(plain_other, u, c, answer, answer_len);
}

uint32_t plain_work_total(struct in_use u, const struct call *c, uint8_t *answer,
                          size_t answer_len) {
    return judge(plain_total, u, c, answer, answer_len);
}

uint32_t plain_work_mst1(struct in_use u, const struct call *c, uint8_t *answer,
                         size_t answer_len) {
    static struct part p;
    size_t i;
    if (answer_len != 16) return 0;
    if (!part_of(&p, u, c, answer)) return 1;
    plain_mst1(&p.c, answer, 16);
    renumber(&p, answer);
    if (answer[0] == 0) return 1;
    memset(c->mark, 0, ROWS);
    for (i = 0; i < p.c.left_len; i++) c->mark[p.row[i] - 1] = p.mark[i];
    return 1;
}

uint32_t plain_work_paths(struct in_use u, const struct call *c, uint32_t s, uint64_t *matrix,
                          size_t words, uint8_t *answer, size_t answer_len) {
    static struct part p;
    static uint64_t own[WORDS * 255];
    size_t v, i;
    if (answer_len != 16) return 0;
    if (!part_of(&p, u, c, answer)) return 1;
    plain_paths(&p.c, s, own, words < WORDS * (size_t)c->n ? words : WORDS * (size_t)c->n, answer,
                16);
    renumber(&p, answer);
    if (answer[0] == 0) return 1;
    memset(matrix, 0, 8 * WORDS * (size_t)c->n);
    for (v = 0; v < c->n; v++)
        for (i = 0; i < p.c.left_len; i++)
            if (own[WORDS * v + i / 64] >> i % 64 & 1)
                matrix[WORDS * v + (p.row[i] - 1) / 64] |= (uint64_t)1 << (p.row[i] - 1) % 64;
    return 1;
}

uint32_t plain_strike(struct in_use u, uint32_t row, uint8_t *answer, size_t answer_len) {
    if (answer_len != 16) return 0;
    if (!used(u, row)) return refuse(answer, 18);
    if (u.count != WORDS) return refuse(answer, 3);
    u.words[(row - 1) / 64] -= (uint64_t)1 << (row - 1) % 64;
    return put(answer, 1, 0, 0);
}

uint32_t plain_restore(struct in_use u, uint32_t row, uint8_t *answer, size_t answer_len) {
    if (answer_len != 16) return 0;
    if (row < 1 || row > ROWS || used(u, row)) return refuse(answer, 27);
    if (u.count != WORDS) return refuse(answer, 3);
    u.words[(row - 1) / 64] += (uint64_t)1 << (row - 1) % 64;
    return put(answer, 1, 0, 0);
}

/* Writes the rows in use anew from the top, then zeros; gives the number of rows in use. */
static size_t pack(struct in_use u, const struct call *c, struct numbers to) {
    size_t i, m = 0;
    for (i = 1; i <= ROWS; i++) {
        to.at[i - 1] = 0;
        if (!used(u, i)) continue;
        c->left[m] = c->left[i - 1];
        c->right[m] = c->right[i - 1];
        memmove(c->weight + 4 * m, c->weight + 4 * (i - 1), 4);
        to.at[i - 1] = (uint32_t)++m;
    }
    memset(c->left + m, 0, ROWS - m);
    memset(c->right + m, 0, ROWS - m);
    memset(c->weight + 4 * m, 0, 4 * (ROWS - m));
    memset(u.words, 0, 8 * WORDS);
    for (i = 0; i < m; i++) u.words[i / 64] |= (uint64_t)1 << i % 64;
    return m;
}

uint32_t plain_merge(struct in_use u, const struct call *c, struct numbers to, uint8_t *answer,
                     size_t answer_len) {
    if (answer_len != 16) return 0;
    if (wrong_columns(u, c) || to.count != ROWS) return refuse(answer, 3);
    pack(u, c, to);
    return put(answer, 1, 0, 0);
}

uint32_t plain_add(struct in_use u, const struct call *c, struct numbers to, uint8_t a, uint8_t b,
                   int32_t price, uint8_t *answer, size_t answer_len) {
    size_t i, all = 0, last = 0;
    int k;
    if (answer_len != 16) return 0;
    for (i = 1; i <= ROWS; i++) {
        all += (size_t)used(u, i);
        if (used(u, i)) last = i;
    }
    if (all == ROWS) return refuse(answer, 17);
    if (wrong_columns(u, c) || to.count != ROWS) return refuse(answer, 3);
    if (last == ROWS) last = pack(u, c, to);
    else
        for (i = 1; i <= ROWS; i++) to.at[i - 1] = used(u, i) ? (uint32_t)i : 0;
    c->left[last] = a;
    c->right[last] = b;
    for (k = 0; k < 4; k++) c->weight[4 * last + (size_t)k] = (uint8_t)((uint32_t)price >> (8 * k));
    u.words[last / 64] |= (uint64_t)1 << last % 64;
    return put(answer, 1, 0, (unsigned)last + 1);
}

uint32_t plain_carry(struct numbers to, uint8_t *mark, size_t mark_len, uint8_t *answer,
                     size_t answer_len) {
    uint8_t old[ROWS];
    size_t row;
    if (answer_len != 16) return 0;
    if (to.count != ROWS || mark_len != ROWS) return refuse(answer, 3);
    memcpy(old, mark, ROWS);
    memset(mark, 0, ROWS);
    for (row = ROWS; row >= 1; row--)
        if (to.at[row - 1] >= 1 && to.at[row - 1] <= ROWS) mark[to.at[row - 1] - 1] = old[row - 1];
    return put(answer, 1, 0, 0);
}
