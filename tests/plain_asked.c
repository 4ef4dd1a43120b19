#include "plain_asked.h"

#include <inttypes.h>
#include <stdio.h>
#include <string.h>

enum { ROWS = 1024, MAX_N = 255, QUOTE = 24, LIST = 6370 };

static void put_number(uint8_t *bytes, int64_t x) {
    int k;
    for (k = 0; k < 8; k++) bytes[k] = (uint8_t)((uint64_t)x >> (8 * k));
}

static int64_t number_at(const uint8_t *bytes) {
    int64_t x = bytes[7] < 128 ? bytes[7] : bytes[7] - 256;
    int k;
    for (k = 6; k >= 0; k--) x = x * 256 + bytes[k];
    return x;
}

static uint32_t put(uint8_t *answer, unsigned kind, unsigned number, int64_t amount) {
    memset(answer, 0, 16);
    answer[0] = (uint8_t)kind;
    answer[1] = (uint8_t)number;
    put_number(answer + 8, amount);
    return 1;
}

/* The rows that are regarded: how many there can be, and whether row i, counted from 1, is one. */
static size_t rows_of(const struct in_use *u, const struct call *c) {
    return u ? ROWS : c->left_len;
}

static int regarded(const struct in_use *u, const struct call *c, size_t i) {
    if (i < 1 || i > rows_of(u, c)) return 0;
    return !u || (u->words[(i - 1) / 64] >> (i - 1) % 64) % 2 == 1;
}

/* The least total, or the refusal of a table; marks of the length that fits are lent, so that no
   fault of theirs is told. */
static void mark_tree(const struct in_use *u, const struct call *c, uint8_t mark[ROWS],
                      uint8_t answer[16]) {
    struct call own = *c;
    memset(mark, 0, ROWS);
    own.mark = mark;
    own.mark_len = u ? ROWS : c->left_len; /* above 1,024 it is refused before marks are looked
                                              at */
    if (u) plain_work_mst1(*u, &own, answer, 16);
    else plain_mst1(&own, answer, 16);
}

static void build(const struct in_use *u, const struct call *c, uint8_t answer[16]) {
    uint8_t mark[ROWS];
    mark_tree(u, c, mark, answer);
}

/* Refusals 1, 2, 3, 4 and 15, then 7, then 11; else 0, and the answer has the least total. */
static int refused(const struct in_use *u, const struct call *c, uint32_t row, uint8_t answer[16]) {
    build(u, c, answer);
    if (answer[0] == 0 && answer[1] != 11) return 1;
    if (!regarded(u, c, row)) return (int)put(answer, 0, 7, 0);
    return answer[0] == 0;
}

uint32_t plain_quote(const struct in_use *u, const struct call *c, uint32_t row, int32_t price,
                     uint8_t *answer, size_t answer_len) {
    uint8_t weight[4 * ROWS], after[16];
    struct call changed = *c;
    int k;
    if (answer_len != QUOTE) return 0;
    memset(answer, 0, QUOTE);
    if (refused(u, c, row, answer)) return 1;
    memcpy(weight, c->weight, c->weight_len);
    for (k = 0; k < 4; k++)
        weight[4 * (row - 1) + (size_t)k] = (uint8_t)((uint32_t)price >> (8 * k));
    changed.weight = weight;
    build(u, &changed, after);
    put_number(answer + 16, number_at(after + 8));
    return 1;
}

static int64_t price_of(const struct call *c, size_t i) {
    const uint8_t *w = c->weight + 4 * (i - 1);
    return (w[3] < 128 ? w[3] : w[3] - 256) * (int64_t)16777216 + w[2] * 65536 + w[1] * 256 + w[0];
}

/* Whether rows of at most a price join the ends of a row without it: the vertices reached are
   spread row by row until no more come. */
static int joined(const struct in_use *u, const struct call *c, size_t row, int64_t most) {
    uint8_t reached[MAX_N + 1] = {0};
    size_t i;
    int more = 1;
    reached[c->left[row - 1]] = 1;
    while (more && !reached[c->right[row - 1]])
        for (more = 0, i = 1; i <= rows_of(u, c); i++) {
            uint8_t *a = &reached[c->left[i - 1]], *b = &reached[c->right[i - 1]];
            if (i == row || !regarded(u, c, i) || price_of(c, i) > most || *a == *b) continue;
            *a = *b = 1;
            more = 1;
        }
    return reached[c->right[row - 1]];
}

uint32_t plain_breaking(const struct in_use *u, const struct call *c, uint32_t row, uint8_t *answer,
                        size_t answer_len) {
    int64_t low = INT32_MIN, high = INT32_MAX;
    if (answer_len != 16) return 0;
    if (refused(u, c, row, answer)) return 1;
    if (!joined(u, c, row, high)) return put(answer, 2, 0, 0);
    while (low < high) { /* the least threshold at which the ends are joined lies between the two */
        int64_t middle = low + (high - low) / 2;
        if (joined(u, c, row, middle)) high = middle;
        else low = middle + 1;
    }
    return put(answer, 1, 0, low);
}

/* The total of a plan that is a tree, or its refusal as star_cst gives it. */
static int tree(const struct in_use *u, const struct call *c, struct marks plan, uint8_t answer[16],
                int64_t *total) {
    struct call own = *c;
    size_t i;
    own.mark = (uint8_t *)plan.at;
    own.mark_len = plan.len;
    if (u) plain_work_cst(*u, &own, answer, 16);
    else plain_cst(&own, answer, 16);
    if (answer[0] == 0) return 0;
    *total = 0;
    for (i = 1; i <= rows_of(u, c); i++)
        *total += regarded(u, c, i) && plan.at[i - 1] == 1 ? price_of(c, i) : 0;
    return 1;
}

uint32_t plain_which(const struct in_use *u, const struct call *c, struct marks first,
                     struct marks second, uint8_t *answer, size_t answer_len) {
    int64_t total[2];
    if (answer_len != 16) return 0;
    if (!tree(u, c, first, answer, &total[0]) || !tree(u, c, second, answer, &total[1])) return 0;
    put(answer, 1, 0, total[1] < total[0] ? total[1] : total[0]);
    return total[1] < total[0] ? 2 : 1;
}

/* The lines of the rows that are marked, and that of their total. */
static uint32_t list(const struct in_use *u, const struct call *c, const uint8_t *mark,
                     int64_t total, uint8_t *text, uint8_t *answer) {
    char line[80];
    size_t i, len = 0, k;
    for (i = 1; i <= rows_of(u, c) + 1; i++) {
        if (i > rows_of(u, c))
            k = (size_t)snprintf(line, sizeof line, "Total %" PRId64 "\n", total);
        else if (regarded(u, c, i) && mark[i - 1] == 1)
            k = (size_t)snprintf(line, sizeof line, "%zu %u %u %" PRId64 "\n", i, c->left[i - 1],
                                 c->right[i - 1], price_of(c, i));
        else continue;
        memcpy(text + len, line, k);
        len += k;
    }
    return put(answer, 1, 0, (int64_t)len);
}

uint32_t plain_digs(const struct in_use *u, const struct call *c, uint8_t *text, size_t text_len,
                    uint8_t *answer, size_t answer_len) {
    uint8_t mark[ROWS];
    if (answer_len != 16 || text_len < LIST) return 0;
    mark_tree(u, c, mark, answer);
    if (answer[0] == 0) return 1;
    return list(u, c, mark, number_at(answer + 8), text, answer);
}

uint32_t plain_plan_digs(const struct in_use *u, const struct call *c, uint8_t *text,
                         size_t text_len, uint8_t *answer, size_t answer_len) {
    struct marks plan = {c->mark, c->mark_len};
    int64_t total;
    if (answer_len != 16 || text_len < LIST) return 0;
    if (!tree(u, c, plan, answer, &total)) return 1;
    return list(u, c, plan.at, total, text, answer);
}
