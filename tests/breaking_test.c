/* Compares star_breaking and star_work_breaking with the plain implementation, which searches over
 * thresholds: the price, none, the refusals in their order, the sixteen bytes and all that stands
 * around what is lent. Where a table is taken, the least totals of plain.c move by exactly min(new,
 * breaking) - min(old, breaking), or new - old, for new prices at, next to and far from the
 * breaking price.
 * usage: breaking_test [TABLES [exact]]   prints one line 'N passed, M failed' at its end; exact:
 * columns in memory of their own length */
#include "lent.h"
#include "plain_asked.h"

static unsigned long priced[2], never[2];

static uint32_t door(struct lent *t) {
    struct handed p = lent_hand(t);
    return lent_back(t, p, ASK(t, p, breaking, t->at, HANDED(t, p, ANSWER)));
}

static uint32_t plain(struct lent *t) {
    struct call c = lent_call(t);
    return plain_breaking(lent_in_use(t), &c, t->at, t->answer, t->len[ANSWER]);
}

static int64_t least(int64_t a, int64_t b) { return a < b ? a : b; }

/* Whether the least total moves by exactly what the breaking price says. */
static int exact(struct lent *t, struct star_answer a, int32_t new) {
    struct call c = lent_call(t);
    uint8_t answer[STAR_QUOTE_BYTES];
    struct star_quoted q;
    int64_t old = star_get_price(t->weight, t->at - 1), move = new - old;
    if (a.kind != STAR_NEVER) move = least(new, a.amount) - least(old, a.amount);
    plain_quote(lent_in_use(t), &c, t->at, new, answer, sizeof answer);
    q = star_read_quoted(answer);
    return q.kind == STAR_PASSED && q.after - q.before == move;
}

static void effects(struct lent *t, struct star_answer a) {
    int32_t limits[] = {STAR_MIN_PRICE, STAR_MAX_PRICE}, near = (int32_t)a.amount;
    tell(a.amount >= STAR_MIN_PRICE && a.amount <= STAR_MAX_PRICE, "a breaking price is a price");
    tell(exact(t, a, limits[any(2)]) && exact(t, a, lent_price(t)), "the effect of a price");
    if (a.kind == STAR_NEVER) return;
    tell(exact(t, a, near) && (near == STAR_MAX_PRICE || exact(t, a, near + 1)) &&
             (near == STAR_MIN_PRICE || exact(t, a, near - 1)),
         "the effect of a price at the breaking price");
}

static struct star_answer one(struct lent *t, uint32_t row) {
    struct star_answer a;
    uint32_t said;
    t->at = row;
    said = lent_agree(t, "breaking", door, plain);
    a = star_read_answer(t->answer);
    if (!lent_ended(t, said)) return a;
    if (a.kind == STAR_NEVER) never[t->working]++;
    else priced[t->working]++;
    if (lent_used(t, row)) effects(t, a);
    return a;
}

/* Tables whose breaking prices are known: the yard, and a triangle with a bridge. */
static void known(const char *in_use) {
    static const int64_t yard[] = {5, 5, 5, 5, 5}, bridge[] = {7, 7, 3};
    static const uint8_t left[] = {1, 2, 1, 3}, right[] = {2, 3, 3, 4};
    static const int32_t price[] = {2, 3, 7, -1};
    static struct lent t;
    struct star_answer a;
    uint32_t row;
    for (row = 0; row <= 6; row++) {
        lent_yard(&t, in_use);
        a = one(&t, row);
        if (row >= 1 && row <= 5)
            tell(a.kind == STAR_PASSED && a.amount == yard[row - 1], "the yard's breaking prices");
        else tell(lent_refuses(&t, STAR_BAD_SOURCE, 0), "no row of the yard");
    }
    lent_yard(&t, in_use);
    lent_put(&t, 4, left, right, price);
    for (row = 1; row <= 3; row++) {
        a = one(&t, row);
        tell(a.kind == STAR_PASSED && a.amount == bridge[row - 1], "prices beside a bridge");
    }
    a = one(&t, 4);
    tell(a.kind == STAR_NEVER && a.amount == 0, "the price of a bridge");
    t.n = 5;
    tell(one(&t, 4).number == STAR_NO_NETWORK, "11");
    tell(one(&t, 5).number == STAR_BAD_SOURCE, "7 before 11");
}

static void row_1(struct lent *t) {
    star_set_in_use(t->in_use, 1, 1);
    t->at = 1;
}

static void held(struct lent *t) { one(t, 1); }

static void cases(void) {
    known(NULL);
    known("12345");
    lent_each_length(held);
    lent_small_stacks(door, row_1, STACK);
}

static void table(unsigned long k) {
    static struct lent t;
    uint32_t row;
    lent_make(&t, k);
    row = lent_any_row(&t);
    if (any(6) == 0) lent_damage(&t);
    one(&t, row);
}

int main(int count, char **words) {
    static const unsigned numbers[] = {1, 2, 3, 4, 15, 7, 11, 0};
    unsigned long tables = run(count, words, 20000, cases, table), k;
    for (k = 0; k < 2; k++) {
        share(priced[k], 5, tables, "the share of breaking prices that are given");
        share(never[k], 50, tables, "the share of none");
    }
    return lent_told("breaking prices", tables, 1500, numbers);
}
