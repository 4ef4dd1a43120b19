/* Holds star_outlets and star_work_outlets to what is promised of them: exactly t rows at r, a
 * network, no other with t rows at r is cheaper, 19 exactly where there is none, 11 exactly where
 * the table is not connected, the refusals in their order, and nothing else written. On small
 * tables every network is listed; on all of them the total is found by sorted rows with a number
 * added to the prices at r.
 * usage: outlets_test [TABLES [exact]]   prints one line 'N passed, M failed' at its end; exact:
 * columns in memory of their own length */
#include <stdio.h>
#include <string.h>

#include "lent.h"
#include "plain_outlets.h"

/* What the tables came to: dearer ones cost more than a least network. */
static unsigned long dearer, listed;

static uint32_t door(struct lent *t) {
    struct handed p = lent_hand(t);
    return lent_back(t, p,
                     ASK(t, p, outlets, HANDED(t, p, MARK), t->at, t->count, HANDED(t, p, ANSWER)));
}

/* The rows of a table at the junction asked about; those that are marked alone, for marks. */
static uint32_t here(const struct lent *t, const struct rows *r, const uint8_t *mark) {
    uint32_t count = 0;
    size_t k;
    for (k = 0; k < r->m; k++)
        if (!mark || mark[r->row[k] - 1]) count += r->a[k] == t->at || r->b[k] == t->at;
    return count;
}

/* Whether the marks are a network with exactly t rows at r, of this total; 0 at rows not in use. */
static int tree_holds(const struct lent *t, const struct rows *r, int64_t amount) {
    struct parts p;
    size_t k, count = 0;
    parts_start(&p);
    for (k = 0; k < lent_m(t); k++)
        if (t->mark[k] > lent_used(t, k + 1)) return 0;
    for (k = 0; k < r->m; k++) {
        if (!t->mark[r->row[k] - 1]) continue;
        if (!parts_join(&p, r->a[k], r->b[k])) return 0;
        count++;
    }
    return count + 1 == t->n && here(t, r, t->mark) == t->count && lent_sum(t, t->mark) == amount;
}

/* What is expected: a refusal, or a pass with the total. */
static struct star_answer expected(const struct lent *t, const struct rows *r) {
    struct star_answer a = lent_least(t, MARK);
    struct outlets o, all;
    if (a.kind == STAR_REFUSED && a.number != STAR_NO_NETWORK) return a;
    if (t->at == 0 || t->at > t->n) return refusal(STAR_BAD_SOURCE, 0);
    if (a.kind == STAR_REFUSED) return a;
    o = outlets_shifted(r, t->at, t->count);
    if (t->n <= 6 && r->m <= 12) {
        all = outlets_listed(t->n, r, t->at, t->count);
        tell(o.exists == all.exists && o.total == all.total, "the two plain ways");
        listed++;
    }
    if (!o.exists) return refusal(STAR_NO_OUTLETS, 0);
    dearer += o.total > a.amount;
    a.amount = o.total;
    return a;
}

static void held(struct lent *t) {
    static struct lent before;
    static struct rows r;
    struct star_answer a, judged;
    uint32_t said;
    lent_rows(t, &r);
    a = expected(t, &r);
    lent_copy(&before, t);
    said = door(t);
    if (lent_refused(t, &before, said, a)) return;
    lent_ended(t, said);
    tell(said == 1 && lent_does(t, a.amount), "the least total with exactly t rows");
    tell(tree_holds(t, &r, a.amount), "the network with exactly t rows");
    judged = lent_judged(t);
    tell(judged.kind == (a.amount == lent_least(t, MARK).amount ? STAR_PASSED : STAR_LIGHTER),
         "the check of the network");
    memcpy(before.answer, t->answer, STAR_ANSWER_BYTES);
    memcpy(before.mark, t->mark, t->len[MARK]);
    tell(lent_same(t, &before), "what is not written");
}

/* A count at a junction that is mostly possible. */
static void question(struct lent *t) {
    static struct rows r;
    uint32_t most;
    t->at = 1 + any(t->n);
    if (any(80) == 0) t->at = 0;
    if (any(80) == 0) t->at = t->n + 1 + any(300);
    lent_rows(t, &r);
    most = here(t, &r, NULL);
    t->count = 1 + any(most);
    if (any(13) == 0) t->count = any(most + 3);
    if (any(80) == 0) t->count = 256 + any(most + 1);
    if (any(80) == 0) t->count = (uint32_t)bits();
}

/* The yard, or its rows in use: the total and the marks, where these are known. */
static void known(const char *in_use, uint32_t r, uint32_t count, int64_t total,
                  const char *marked) {
    static struct lent t;
    size_t i;
    int ok = 1;
    lent_yard(&t, in_use);
    t.at = r;
    t.count = count;
    held(&t);
    for (i = 0; i < 5 && *marked; i++)
        ok = ok && t.mark[i] == (strchr(marked, (int)('1' + i)) != NULL);
    tell(ok && lent_does(&t, total), "the yard's known total");
}

static void known_refusal(const char *in_use, uint32_t r, uint32_t count, unsigned number) {
    static struct lent t;
    lent_yard(&t, in_use);
    t.at = r;
    t.count = count;
    held(&t);
    tell(lent_refuses(&t, number, 0), "a known refusal");
}

/* Rows 1-2 5, 1-3 5, 2-3 -10: with the greatest price at 1 added to all others, row 3 would still
   come first. */
static void below_0(void) {
    static const uint8_t left[] = {1, 1, 2}, right[] = {2, 3, 3};
    static const int32_t price[] = {5, 5, -10};
    static struct lent t;
    for (lent_yard(&t, NULL), t.count = 1; t.count <= 2; t.count++) {
        t.n = 3;
        lent_put(&t, 3, left, right, price);
        held(&t);
        tell(lent_does(&t, t.count == 1 ? -5 : 10), "a price below 0");
    }
}

/* 254 rows at junction 1, of which all but one go out; then the pairs without 1, in their order. */
static void many_at_1(struct lent *t) {
    unsigned a = 1, b = 1;
    size_t i;
    for (i = 0; i < STAR_MAX_ROWS; i++) {
        if (++b > 255) b = ++a + 1;
        t->left[i] = (uint8_t)a;
        t->right[i] = (uint8_t)b;
    }
    t->at = t->count = 1;
}

static void ready(struct lent *t) {
    many_at_1(t);
    held(t);
}

static void cases(void) {
    static struct lent t;
    uint32_t k;
    lends = LENDS(MARK);
    for (k = 1; k <= 2; k++) {
        known(NULL, 1, k, 12, "");
        known(NULL, 3, k, 12, "");
        known(NULL, 2, k, 12, "");
        known(NULL, 4, k, 12, "");
    }
    known(NULL, 1, 3, 15, "145");
    known(NULL, 3, 3, 14, "235");
    known("135", 3, 2, 16, "135");
    known_refusal(NULL, 2, 3, STAR_NO_OUTLETS);
    known_refusal(NULL, 4, 3, STAR_NO_OUTLETS);
    known_refusal(NULL, 1, 0, STAR_NO_OUTLETS);
    known_refusal(NULL, 1, 4, STAR_NO_OUTLETS);
    known_refusal(NULL, 1, 257, STAR_NO_OUTLETS);
    known_refusal(NULL, 1, (uint32_t)-1, STAR_NO_OUTLETS);
    known_refusal(NULL, 0, 1, STAR_BAD_SOURCE);
    known_refusal(NULL, 5, 1, STAR_BAD_SOURCE);
    known_refusal(NULL, 257, 1, STAR_BAD_SOURCE);
    known_refusal("135", 1, 1, STAR_NO_OUTLETS);
    known_refusal("15", 1, 1, STAR_NO_NETWORK);
    known_refusal("15", 9, 1, STAR_BAD_SOURCE);
    below_0();
    lent_yard(&t, NULL); /* one junction, no row */
    lent_no_rows(&t);
    t.count = 0;
    held(&t);
    tell(lent_does(&t, 0), "one junction");
    t.count = 1;
    held(&t);
    tell(lent_refuses(&t, STAR_NO_OUTLETS, 0), "one junction and a row");
    lent_small_stacks(door, ready, STACK);
    lent_each_length(held);
}

static void table(unsigned long k) {
    static struct lent t;
    lent_make(&t, k);
    question(&t);
    if (any(7) == 0) lent_damage(&t);
    held(&t);
}

int main(int count, char **words) {
    static const unsigned numbers[] = {3, 4, 7, 11, 15, 19, 0};
    unsigned long tables = run(count, words, 20000, cases, table);
    share(lent_done[0] + lent_done[1], 2, tables, "the share of tables that are not refused");
    share(dearer, 5, tables, "the share of tables that cost more than the least");
    share(listed, 4, tables, "the share of tables whose networks are listed");
    share(refused[STAR_NO_OUTLETS], 50, tables, "the share of no outlets");
    printf("%lu dearer than a least network, %lu listed\n", dearer, listed);
    return lent_told("outlets", tables, 200, numbers);
}
