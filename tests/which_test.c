/* Compares star_which and star_work_which with the plain implementation: which of two plans, its
 * total, the first plan's refusal before the second's, the sixteen bytes and all that stands around
 * what is lent. Where a plan is named its marks are a tree by star.h's own words: added up once
 * more.
 * usage: which_test [PAIRS [exact]]   prints one line 'N passed, M failed' at its end; exact:
 * columns in memory of their own length */
#include <string.h>

#include "lent.h"
#include "plain_asked.h"

static unsigned long named[3], equal;

static uint32_t door(struct lent *t) {
    struct handed p = lent_hand(t);
    return lent_back(
        t, p, ASK(t, p, which, HANDED(t, p, MARK), HANDED(t, p, SECOND), HANDED(t, p, ANSWER)));
}

static uint32_t plain(struct lent *t) {
    struct call c = lent_call(t);
    struct marks first = {t->mark, t->len[MARK]}, second = {t->second, t->len[SECOND]};
    return plain_which(lent_in_use(t), &c, first, second, t->answer, t->len[ANSWER]);
}

static uint32_t one(struct lent *t) {
    uint32_t said = lent_agree(t, "which", door, plain);
    int64_t first, second;
    if (!lent_ended(t, said)) return said;
    first = lent_sum(t, t->mark);
    second = lent_sum(t, t->second);
    named[said % 3]++;
    equal += first == second;
    tell(lent_does(t, said == 1 ? first : second), "the named plan's total");
    tell(said == 1 ? first <= second : second < first, "the lighter plan");
    return said;
}

/* Pairs of plans of the yard whose answers are known. */
static const struct {
    uint8_t first[5], second[5];
    uint32_t said;
    unsigned number, place;
    int64_t total;
} PAIR[] = {
    {{1, 1, 1, 0, 0}, {1, 1, 0, 1, 0}, 2, 0, 0, 12},
    {{1, 1, 0, 1, 0}, {0, 1, 1, 1, 0}, 1, 0, 0, 12},
    {{1, 1, 0, 0, 1}, {1, 1, 0, 1, 0}, 0, STAR_NOT_JOINED, 4, 0},
    {{1, 1, 0, 1, 0}, {1, 1, 0, 0, 0}, 0, STAR_BAD_MARK_COUNT, 0, 0},
    {{1, 1, 0, 0, 1}, {1, 1, 0, 0, 9}, 0, STAR_NOT_JOINED, 4, 0},
    {{1, 1, 0, 1, 0}, {1, 1, 9, 0, 8}, 0, STAR_BAD_MARK, 3, 0},
};

static void known(const char *in_use) {
    static struct lent t;
    size_t i;
    for (i = 0; i < sizeof PAIR / sizeof PAIR[0]; i++) {
        lent_yard(&t, in_use);
        memcpy(t.mark, PAIR[i].first, 5);
        memcpy(t.second, PAIR[i].second, 5);
        tell(one(&t) == PAIR[i].said, "which of a known pair of plans");
        if (PAIR[i].said) tell(lent_does(&t, PAIR[i].total), "a known pair of plans");
        else tell(lent_refuses(&t, PAIR[i].number, PAIR[i].place), "a known refusal of a plan");
    }
}

/* The first plan's refusal goes before a second column of another length. */
static void lengths(void) {
    static struct lent t;
    lent_yard(&t, NULL);
    memcpy(t.mark, PAIR[2].first, 5);
    t.len[SECOND] = 4;
    one(&t);
    tell(t.answer[1] == STAR_NOT_JOINED, "the first plan's refusal before the second's length");
    memcpy(t.mark, PAIR[0].first, 5);
    one(&t);
    tell(t.answer[1] == STAR_BAD_LENGTHS, "the second plan's length");
    t.len[ANSWER] = 15;
    t.len[SECOND] = 5;
    one(&t);
    lent_no_rows(&t);
    one(&t);
    tell(lent_does(&t, 0), "one junction");
}

/* Another row for a marked one: a tree, a ring, or too few or too many marks. */
static void exchange(const struct lent *t, uint8_t *mark) {
    mark[lent_row(t) - 1] = 0;
    mark[lent_row(t) - 1] = 1;
}

static void put_plan(struct lent *t, uint8_t *mark) {
    lent_mark(t, mark);
    if (any(16) == 0) mark[lent_row(t) - 1] ^= (uint8_t)(any(3) ? 1 : 2 + any(250));
    if (any(10) == 0) exchange(t, mark);
}

static void put_plans(struct lent *t) {
    lent_mark(t, t->mark);
    lent_mark(t, t->second);
}

static void held(struct lent *t) {
    memcpy(t->mark, PAIR[0].first, 5);
    memcpy(t->second, PAIR[0].second, 5);
    one(t);
}

static void cases(void) {
    lends = LENDS(MARK) | LENDS(SECOND);
    known(NULL);
    known("12345");
    lengths();
    lent_each_length(held);
    lent_small_stacks(door, put_plans, STACK);
}

static void table(unsigned long k) {
    static struct lent t;
    lent_make(&t, k);
    put_plan(&t, t.mark);
    put_plan(&t, t.second);
    if (any(7) == 0) lent_damage(&t);
    one(&t);
}

int main(int count, char **words) {
    static const unsigned numbers[] = {1, 2, 3, 4, 15, 6, 9, 10, 0};
    unsigned long pairs = run(count, words, 20000, cases, table);
    share(named[1], 8, pairs, "the share of first plans");
    share(named[2], 8, pairs, "the share of second plans");
    share(equal, 20, pairs, "the share of plans that cost the same");
    share(lent_done[1], 8, pairs, "the share of working tables");
    return lent_told("pairs of plans", pairs, 1500, numbers);
}
