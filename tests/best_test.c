/* Holds star_best and star_work_best to what is promised of them: the exchange that saves most, as
 * every pair of rows gives it, with the least total beside it; a pass exactly where star_cst passes
 * the plan; star_cst's refusals in its order, and nothing else written. The exchange is made, and
 * what it gives compared with the least total.
 * usage: best_test [TABLES [exact]]   prints one line 'N passed, M failed' at its end; exact:
 * columns in memory of their own length */
#include <stdio.h>
#include <string.h>

#include "lent.h"
#include "plain_detours.h"

/* What the tables came to: exchanges that give the least total, and that do not; exchanges that
   star_cst would not name. */
static unsigned long enough, too_few, others;

static uint32_t door(struct lent *t) {
    struct handed p = lent_hand(t);
    return lent_back(t, p, ASK(t, p, best, HANDED(t, p, MARK), HANDED(t, p, ANSWER)));
}

/* Bytes 16 to 23. */
static int64_t least_read(const struct lent *t) {
    uint64_t x = 0;
    int i;
    for (i = 8; i-- > 0;) x = x << 8 | t->answer[16 + i];
    return (int64_t)x;
}

/* What is expected of the first sixteen bytes. */
static struct star_answer expected(const struct lent *t) {
    static struct rows r;
    struct star_answer a = lent_judged(t);
    struct saving s;
    if (a.kind == STAR_REFUSED) return a;
    lent_rows(t, &r);
    s = plain_best(&r, t->mark);
    others += s.saved > 0 && (s.out != a.out || s.in != a.in);
    tell((s.saved > 0) == (a.kind == STAR_LIGHTER), "a pass where star_cst passes");
    memset(&a, 0, sizeof a);
    a.kind = s.saved > 0 ? STAR_LIGHTER : STAR_PASSED;
    a.out = s.out;
    a.in = s.in;
    a.amount = s.saved > 0 ? s.saved : lent_sum(t, t->mark);
    return a;
}

/* The exchange is made: a network, cheaper by the saving, and never below the least total. */
static void made(struct lent *t, struct star_answer a, int64_t least) {
    static struct lent after;
    int64_t total;
    if (a.kind != STAR_LIGHTER) {
        tell(least == a.amount, "the least total of a pass");
        return;
    }
    lent_copy(&after, t);
    after.mark[a.out - 1] = 0;
    after.mark[a.in - 1] = 1;
    total = lent_sum(&after, after.mark);
    tell(lent_judged(&after).kind != STAR_REFUSED, "the exchange is a network");
    tell(total + a.amount == lent_sum(t, t->mark) && total >= least, "what the exchange saves");
    if (total == least) enough++;
    else too_few++;
}

static void held(struct lent *t) {
    static struct lent before;
    struct star_answer a = expected(t);
    uint32_t said;
    int64_t least;
    lent_copy(&before, t);
    said = door(t);
    if (lent_refused(t, &before, said, a)) {
        if (t->len[ANSWER] == answer_len && a.kind == STAR_REFUSED)
            tell(least_read(t) == 0, "no least total beside a refusal");
        return;
    }
    lent_ended(t, said);
    least = lent_least(t, MARK).amount;
    tell(said == 1 && lent_answers(t, a), "the best exchange");
    tell(least_read(t) == least, "the least total");
    made(t, a, least);
    memcpy(before.answer, t->answer, answer_len);
    tell(lent_same(t, &before), "what is not written");
}

/* The yard, or its rows in use, with marks as digits. */
static void known(const char *in_use, const char *marked, struct star_answer a, int64_t least) {
    static struct lent t;
    size_t i;
    lent_yard(&t, in_use);
    for (i = 0; i < 5; i++) t.mark[i] = strchr(marked, (int)('1' + i)) != NULL;
    held(&t);
    tell(lent_answers(&t, a) && least_read(&t) == least, "the yard's known exchange");
}

static struct star_answer saves(unsigned out, unsigned in, int64_t saved) {
    struct star_answer a = refusal(0, 0);
    a.kind = STAR_LIGHTER;
    a.out = (uint16_t)out;
    a.in = (uint16_t)in;
    a.amount = saved;
    return a;
}

static struct star_answer stays(int64_t total) {
    struct star_answer a = refusal(0, 0);
    a.kind = STAR_PASSED;
    a.amount = total;
    return a;
}

/* The uppermost row that saves is not the best, and one exchange is not enough. */
static void later(void) {
    static const uint8_t left[] = {1, 1, 1, 2, 3}, right[] = {2, 3, 4, 3, 4};
    static const int32_t price[] = {9, 10, 3, 8, 2};
    static struct lent t;
    lent_yard(&t, NULL);
    lent_put(&t, 5, left, right, price);
    memcpy(t.mark, "\1\1\1\0\0", 5);
    held(&t);
    tell(lent_answers(&t, saves(2, 5, 8)) && least_read(&t) == 13, "a later row saves more");
}

/* A plan on a table that is not damaged, or one mark more or less, or a mark moved. */
static void plan(struct lent *t) {
    uint8_t *a = &t->mark[lent_row(t) - 1], *b = &t->mark[lent_row(t) - 1], kept;
    lent_mark(t, t->mark);
    if (any(12) == 0) *a ^= 1;
    else if (any(4) == 0) {
        kept = *a;
        *a = *b;
        *b = kept;
    }
}

static void ready(struct lent *t) {
    lent_mark(t, t->mark);
    held(t);
}

static void cases(void) {
    static struct lent t;
    lends = LENDS(MARK);
    answer_len = STAR_BEST_BYTES;
    known(NULL, "123", saves(1, 4, 1), 12);
    known(NULL, "245", saves(5, 1, 1), 12);
    known(NULL, "124", stays(12), 12);
    known("135", "135", stays(16), 16);
    known("1245", "245", saves(5, 1, 1), 12);
    known(NULL, "125", refusal(STAR_NOT_JOINED, 4), 0);
    known(NULL, "12", refusal(STAR_BAD_MARK_COUNT, 0), 0);
    later();
    lent_yard(&t, NULL); /* one junction, no row */
    lent_no_rows(&t);
    held(&t);
    tell(lent_answers(&t, stays(0)), "one junction");
    lent_small_stacks(door, ready, STACK);
    lent_each_length(held);
}

static void table(unsigned long k) {
    static struct lent t;
    lent_make(&t, k);
    plan(&t);
    if (any(7) == 0) lent_damage(&t);
    held(&t);
}

int main(int count, char **words) {
    static const unsigned numbers[] = {3, 4, 6, 9, 10, 15, 0};
    unsigned long tables = run(count, words, 20000, cases, table);
    share(lent_done[0] + lent_done[1], 2, tables, "the share of tables that are not refused");
    share(enough, 20, tables, "the share of exchanges that give the least total");
    share(too_few, 50, tables, "the share of exchanges that do not");
    share(others, 50, tables, "the share of exchanges that star_cst would not name");
    printf("%lu exchanges give the least total, %lu do not; %lu that star_cst would not name\n",
           enough, too_few, others);
    return lent_told("best", tables, 200, numbers);
}
