/* Faults of the doors that give the best exchange. */
#include "faulty.h"
#include "plain_detours.h"

const int has_faults = 1;

void fault_before(struct lent *t) {
    if (fault("unmarked-first") && lent_m(t) > 0 && lent_m(t) <= STAR_MAX_ROWS) t->mark[0] = 0;
}

static void put_least(struct lent *t, int64_t amount) {
    int i;
    for (i = 0; i < 8; i++) t->answer[16 + i] = (uint8_t)((uint64_t)amount >> (8 * i));
}

static void put_rows(struct lent *t, unsigned out, unsigned in) {
    t->answer[2] = (uint8_t)out;
    t->answer[3] = (uint8_t)(out >> 8);
    t->answer[4] = (uint8_t)in;
    t->answer[5] = (uint8_t)(in >> 8);
}

/* An exchange, spoilt. */
static void spoil(struct lent *t) {
    struct star_answer a = star_read_answer(t->answer), first = lent_judged(t);
    if (fault("rows-swapped")) put_rows(t, a.in, a.out);
    if (fault("first-of-cst")) {
        put_rows(t, first.out, first.in);
        put_amount(t, first.amount);
    }
    if (fault("one-more-saved")) put_amount(t, a.amount + 1);
    if (fault("passed")) {
        memset(t->answer, 0, STAR_ANSWER_BYTES);
        t->answer[0] = STAR_PASSED;
        put_amount(t, lent_sum(t, t->mark));
    }
    if (fault("least-after-the-exchange")) put_least(t, lent_sum(t, t->mark) - a.amount);
}

uint32_t fault_after(struct lent *t, struct lent *before, uint32_t said) {
    memcpy(t->mark, before->mark, sizeof t->mark);
    if (fault("written-unasked")) write_unasked(t);
    if (!said) return said;
    if (t->answer[0] == STAR_LIGHTER) spoil(t);
    if (t->answer[0] != STAR_REFUSED && fault("no-least")) put_least(t, 0);
    if (is_passed(t) && fault("no-total")) put_amount(t, 0);
    if (t->answer[0] == STAR_REFUSED && fault("least-beside-a-refusal")) put_least(t, 7);
    if (fault("marks-written") && t->answer[0] == STAR_LIGHTER) t->mark[0] ^= 1;
    return said;
}
