/* Holds star_districts and star_work_districts to what is promised of them, each statement on its
 * own: the forests of the runs, the tree, its total, what star_cst says of it, the refusals in
 * their order, and that nothing else is written. Ties are free: no tree is compared with another.
 * usage: districts_test [TABLES [exact]]   prints one line 'N passed, M failed' at its end; exact:
 * columns in memory of their own length */
#include <stdio.h>
#include <stdlib.h>
#include <string.h>

#include "lent.h"

/* What the tables came to: runs with a ring, forests of more than one group, rows of forests that
   the tree leaves out. */
static unsigned long ringed, grouped, left_out;

static uint32_t door(struct lent *t) {
    struct handed p = lent_hand(t);
    return lent_back(t, p,
                     ASK(t, p, districts, HANDED(t, p, ENDS), HANDED(t, p, FORESTS),
                         HANDED(t, p, MARK), HANDED(t, p, ANSWER)));
}

/* Refusal 14. */
static int bad_runs(const struct lent *t) {
    size_t m = lent_m(t), count = t->len[ENDS], i;
    if (count > STAR_MAX_RUNS) return 1;
    if (count == 0) return m > 0;
    for (i = 0; i < count; i++)
        if (t->ends[i] <= (i ? t->ends[i - 1] : 0)) return 1;
    return t->ends[count - 1] != m;
}

/* The refusal, or a pass with the least total: 14 stands between those of the table and 11. */
static struct star_answer expected(const struct lent *t) {
    struct star_answer a = lent_least(t, FORESTS);
    int table_holds = a.kind == STAR_PASSED || a.number == STAR_NO_NETWORK;
    return table_holds && bad_runs(t) ? refusal(STAR_BAD_RUNS, 0) : a;
}

/* Whether a column has 1 at rows of the table alone, and 0 at all its others. */
static int is_column(const struct lent *t, const uint8_t *column) {
    size_t i;
    for (i = 1; i <= lent_m(t); i++)
        if (column[i - 1] > lent_used(t, i)) return 0;
    return 1;
}

/* Whether the rows of a run that a column has, from index `from` to `to`, are a least forest of it:
   no ring, joining what the run joins, least in weight. */
static int least_forest(const struct rows *r, const uint8_t *forests, size_t from, size_t to) {
    struct parts own;
    uint8_t met[STAR_MAX_JUNCTIONS + 1] = {0}, least[STAR_MAX_ROWS];
    size_t count = 0, junctions = 0, most = rows_forest(r, from, to, least), k;
    int64_t more = 0; /* than the least */
    int joined = 1;
    parts_start(&own);
    for (k = from; k < to; k++) {
        int has = forests[r->row[k] - 1];
        if (has && !parts_join(&own, r->a[k], r->b[k])) return 0;
        count += (size_t)has;
        more += (has - least[k]) * r->price[k];
        junctions += !met[r->a[k]] + !met[r->b[k]];
        met[r->a[k]] = met[r->b[k]] = 1;
    }
    for (k = from; k < to; k++)
        joined = joined && parts_root(&own, r->a[k]) == parts_root(&own, r->b[k]);
    ringed += most < to - from;
    grouped += junctions > count + 1;
    return joined && count == most && more == 0;
}

static int forests_hold(const struct lent *t, const struct rows *r) {
    size_t run, from = 0, to;
    for (run = 0; run < t->len[ENDS]; run++) {
        for (to = from; to < r->m && r->row[to] <= t->ends[run]; to++) continue;
        if (!least_forest(r, t->forests, from, to)) return 0;
        from = to;
    }
    return from == r->m;
}

/* Whether the marked rows are rows of the forests, join all junctions without a ring, and weigh the
   amount. */
static int tree_holds(const struct lent *t, const struct rows *r, int64_t amount) {
    struct parts p;
    size_t k, count = 0;
    parts_start(&p);
    for (k = 0; k < r->m; k++) {
        int has = t->forests[r->row[k] - 1], marked = t->mark[r->row[k] - 1];
        left_out += has && !marked;
        if (marked && (!has || !parts_join(&p, r->a[k], r->b[k]))) return 0;
        count += (size_t)marked;
    }
    return count + 1 == t->n && lent_sum(t, t->mark) == amount;
}

/* Asks about a table, and holds what comes back to every statement. */
static void held(struct lent *t) {
    static struct lent before;
    static struct rows r;
    struct star_answer least = expected(t), judged;
    uint32_t said;
    lent_copy(&before, t);
    said = door(t);
    if (lent_refused(t, &before, said, least)) return;
    lent_ended(t, said);
    tell(said == 1 && lent_does(t, least.amount), "the least total");
    lent_rows(t, &r);
    tell(is_column(t, t->forests) && is_column(t, t->mark), "bytes of a column");
    tell(forests_hold(t, &r), "a run's forest");
    tell(tree_holds(t, &r, least.amount), "the tree from the forests");
    judged = lent_judged(t);
    tell(judged.kind == STAR_PASSED && judged.amount == least.amount, "the check of the tree");
    memcpy(before.answer, t->answer, STAR_ANSWER_BYTES);
    memcpy(before.forests, t->forests, t->len[FORESTS]);
    memcpy(before.mark, t->mark, t->len[MARK]);
    tell(lent_same(t, &before), "what is not written");
}

static int by_size(const void *x, const void *y) {
    uint32_t a = *(const uint32_t *)x, b = *(const uint32_t *)y;
    return (a > b) - (a < b);
}

/* Ends that are refused. */
static void bad_ends(struct lent *t, uint32_t m) {
    size_t count = t->len[ENDS], i;
    switch (any(6)) {
    case 0: t->len[ENDS] = 0; break;
    case 1: t->len[ENDS] = any(LENT_ENDS + 1); break; /* those after the last one are random */
    case 2: t->ends[count ? count - 1 : 0] += any(2) ? 1 : (uint32_t)-1; break;
    case 3: t->ends[count > 1 ? count - 2 : 1] = t->ends[count ? count - 1 : 0]; break;
    case 4:
        t->ends[0] = 0;
        t->len[ENDS] += count == 0;
        break;
    default:
        for (i = 0; i < LENT_ENDS; i++) t->ends[i] = i < 8 ? (uint32_t)i + 1 : m;
        t->len[ENDS] = 9;
    }
}

/* Random runs: their ends rise to m; in a small share they do not. */
static void runs(struct lent *t) {
    size_t m = lent_m(t), want = any(8), i, count = 0;
    uint32_t drawn[LENT_ENDS];
    for (i = 0; i < want; i++) drawn[i] = (uint32_t)lent_row(t);
    qsort(drawn, want, sizeof drawn[0], by_size);
    for (i = 0; i < want; i++)
        if (drawn[i] < m && (count == 0 || drawn[i] > t->ends[count - 1]))
            t->ends[count++] = drawn[i];
    if (m > 0) t->ends[count++] = (uint32_t)m;
    t->len[ENDS] = count;
    if (any(20) == 0) bad_ends(t, (uint32_t)m);
}

/* Ends as digits, m for the last row of a working table. */
static void put_ends(struct lent *t, const char *ends) {
    size_t *count = &t->len[ENDS];
    for (*count = 0; *ends; ends++)
        t->ends[(*count)++] = *ends == 'm' ? STAR_MAX_ROWS : (uint32_t)(*ends - '0');
}

/* The yard with ends, and what is known of it: the forests and the least total, or a refusal. */
static void known(const char *in_use, const char *ends, unsigned number, const char *forests) {
    static struct lent t;
    size_t i;
    int ok = 1;
    lent_yard(&t, in_use);
    put_ends(&t, ends);
    held(&t);
    for (i = 0; i < 5 && !number; i++) ok = ok && t.forests[i] == (uint8_t)(forests[i] - '0');
    tell(ok, "the yard's known forests");
    if (number) tell(lent_refuses(&t, number, 0) && t.forests[0] == 7, "a known refusal");
    else tell(lent_does(&t, in_use && in_use[1] == '3' ? 16 : 12), "the yard's known total");
}

/* A ring of nine rows with so many runs: at most eight are taken. */
static void ring(size_t count) {
    static struct lent t;
    static const uint8_t left[] = {1, 2, 3, 4, 5, 6, 7, 8, 9},
                         right[] = {2, 3, 4, 5, 6, 7, 8, 9, 1};
    static const int32_t price[] = {3, 1, 4, 1, 5, 9, 2, 6, 5};
    lent_yard(&t, NULL);
    t.n = 9;
    lent_put(&t, 9, left, right, price);
    put_ends(&t, "123456789");
    t.ends[count - 1] = 9;
    t.len[ENDS] = count;
    held(&t);
    tell(t.answer[0] == (count < 9 ? STAR_PASSED : STAR_REFUSED), "seven, eight and nine runs");
}

/* No row and one junction; ends whose low bytes alone are right. */
static void edges(void) {
    static struct lent t;
    lent_yard(&t, NULL);
    lent_no_rows(&t);
    held(&t);
    tell(lent_does(&t, 0), "one junction");
    put_ends(&t, "0");
    held(&t);
    tell(lent_refuses(&t, STAR_BAD_RUNS, 0), "the end 0 of no rows");
    lent_yard(&t, NULL);
    t.ends[0] = 5 + 256;
    held(&t);
    t.ends[0] = 5 + (1u << 16);
    held(&t);
}

static void cases(void) {
    lends = LENDS(ENDS) | LENDS(FORESTS) | LENDS(MARK);
    known(NULL, "25", 0, "11110");
    known(NULL, "12345", 0, "11111");
    known(NULL, "4", STAR_BAD_RUNS, "");
    known(NULL, "55", STAR_BAD_RUNS, "");
    known(NULL, "05", STAR_BAD_RUNS, "");
    known(NULL, "", STAR_BAD_RUNS, "");
    known(NULL, "6", STAR_BAD_RUNS, "");
    known(NULL, "15423", STAR_BAD_RUNS, "");
    known("135", "3m", 0, "10101");
    known("135", "5", STAR_BAD_RUNS, "");
    known("12345", "25m", 0, "11110");
    known("15", "m", STAR_NO_NETWORK, "");
    known("15", "5", STAR_BAD_RUNS, "");
    edges();
    ring(7);
    ring(8);
    ring(9);
    lent_small_stacks(door, NULL, STACK);
    lent_each_length(held);
}

static void table(unsigned long k) {
    static struct lent t;
    lent_make(&t, k);
    runs(&t);
    if (any(7) == 0) lent_damage(&t);
    held(&t);
}

int main(int count, char **words) {
    static const unsigned numbers[] = {3, 4, 11, 14, 15, 0};
    unsigned long tables = run(count, words, 50000, cases, table);
    share(lent_done[0] + lent_done[1], 2, tables, "the share of tables that are not refused");
    share(ringed, 4, tables, "the share of runs with a ring");
    share(grouped, 4, tables, "the share of forests of more than one group");
    share(left_out, 4, tables, "the share of rows left out");
    share(refused[STAR_BAD_RUNS], 50, tables, "the share of bad runs");
    share(refused[STAR_NO_NETWORK], 50, tables, "the share of tables without a network");
    printf("%lu runs with a ring, %lu of more than one group\n", ringed, grouped);
    return lent_told("districts", tables, 200, numbers);
}
