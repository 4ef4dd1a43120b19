/* Faults of the doors that mend a claim. */
#include "faulty.h"

const int has_faults = 1;

void fault_before(struct lent *t) {
    size_t m = lent_m(t);
    int some = t->len[RECORDS] >= m && t->len[RECORDS] < 2 * m && m <= STAR_MAX_ROWS;
    if (fault("m-records-are-enough") && some) t->len[RECORDS] = 2 * m;
}

/* Another network of the same total, by the plain implementation. */
static struct star_answer other(struct lent *t) {
    uint8_t answer[STAR_ANSWER_BYTES];
    struct call c = lent_call(t);
    if (t->working) plain_work_other(*lent_in_use(t), &c, answer, sizeof answer);
    else plain_other(&c, answer, sizeof answer);
    return star_read_answer(answer);
}

static void take_exchange(struct lent *t, struct star_answer o) {
    t->mark[o.out - 1] = 0;
    t->mark[o.in - 1] = 1;
}

/* The records, spoilt one by one, and turned round. */
static void spoil_records(struct lent *t, size_t steps) {
    size_t i;
    for (i = 0; i < steps; i++) {
        struct star_record *r = &t->records[i], kept = *r, *last = &t->records[steps - 1 - i];
        if (fault("kind-of-exchange") && r->kind == STAR_EXCHANGED) r->kind = STAR_ADDED;
        if (fault("out-and-in-swapped")) {
            r->out = kept.in;
            r->in = kept.out;
        }
        if (fault("in-another-order") && i < steps / 2) {
            *r = *last;
            *last = kept;
        }
    }
}

/* The last exchange undone, or one more made, of equal prices; gives the number of steps. */
static size_t spoil_steps(struct lent *t, size_t steps) {
    struct star_record *next = &t->records[steps];
    struct star_answer o = other(t);
    int another = o.kind == STAR_PASSED && !o.only;
    if (fault("one-exchange-too-few") && steps > 0 && next[-1].kind == STAR_EXCHANGED) {
        t->mark[next[-1].out - 1] = 1;
        t->mark[next[-1].in - 1] = 0;
        return steps - 1;
    }
    if (fault("another-tree") && another) take_exchange(t, o);
    if (fault("on-equal-price") && another && steps < t->len[RECORDS]) {
        take_exchange(t, o);
        next->kind = STAR_EXCHANGED;
        next->out = o.out;
        next->in = o.in;
        return steps + 1;
    }
    return fault("records-without-a-count") ? 0 : steps;
}

/* What a mend leaves, spoilt. */
static void spoil(struct lent *t, const struct lent *before) {
    size_t steps = (size_t)star_read_answer(t->answer).amount, i;
    spoil_records(t, steps);
    if (fault("cleared-past-the-end")) t->records[steps].kind = 0;
    put_amount(t, (int64_t)spoil_steps(t, steps));
    if (fault("marks-as-they-were")) memcpy(t->mark, before->mark, sizeof t->mark);
    for (i = 1; i <= lent_m(t) && fault("0-at-rows-not-in-use"); i++)
        if (!lent_used(t, i)) t->mark[i - 1] = 0;
    if (fault("total-as-amount")) put_amount(t, lent_sum(t, t->mark));
}

uint32_t fault_after(struct lent *t, struct lent *before, uint32_t said) {
    int short_list = t->len[RECORDS] < 2 * lent_m(t);
    if (!said) return said;
    if (is_passed(t)) spoil(t, before);
    if (fault("11-before-16") && is_refused(t, STAR_SHORT_RECORDS) &&
        lent_least(t, MARK).number == STAR_NO_NETWORK)
        t->answer[1] = STAR_NO_NETWORK;
    if (fault("16-before-6") && is_refused(t, STAR_BAD_MARK) && short_list)
        put_refusal(t, STAR_SHORT_RECORDS, 0);
    if (fault("written-and-refused") && is_refused(t, STAR_NO_NETWORK)) t->records[0].kind ^= 1;
    if (fault("marks-and-refused") && is_refused(t, STAR_NO_NETWORK)) t->mark[0] ^= 1;
    return said;
}
