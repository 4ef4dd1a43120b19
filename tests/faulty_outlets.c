/* Faults of the doors that give a junction an exact number of rows. */
#include "faulty.h"

const int has_faults = 1;

/* The prices with the other sign. */
static void negate(struct lent *t) {
    size_t i;
    for (i = 0; i < LENT_ROWS; i++) {
        int32_t price = star_get_price(t->weight, i);
        star_put_price(t->weight, i, price == STAR_MIN_PRICE ? STAR_MAX_PRICE : -price);
    }
}

void fault_before(struct lent *t) {
    int there = t->at >= 1 && t->at <= t->n;
    if (fault("one-more") && there) t->count++;
    if (fault("0-taken") && t->count == 0 && t->n > 1) t->count = 1;
    if (fault("low-byte-of-r")) t->at &= 255;
    if (fault("low-byte-of-t")) t->count &= 255;
    if (fault("at-1") && there) t->at = 1;
    if (fault("dearest")) negate(t);
}

/* What a call leaves, spoilt. */
static void spoil(struct lent *t, const struct lent *before) {
    uint8_t mark[LENT_ROWS];
    size_t row;
    memcpy(mark, t->mark, sizeof mark);
    if (fault("dearest")) put_amount(t, lent_sum(t, t->mark));
    if (fault("least-network")) put_amount(t, least_network(t, t->mark).amount);
    if (fault("total-of-the-least")) put_amount(t, least_network(t, mark).amount);
    for (row = 1; row <= lent_m(t) && fault("old-marks-kept"); row++)
        if (!lent_used(t, row)) t->mark[row - 1] = before->mark[row - 1];
}

uint32_t fault_after(struct lent *t, struct lent *before, uint32_t said) {
    memcpy(t->weight, before->weight, sizeof t->weight);
    if (!said) return said;
    if (is_passed(t)) spoil(t, before);
    if (fault("written-and-refused") && is_refused(t, STAR_NO_OUTLETS)) t->mark[0] ^= 1;
    if (fault("11-for-19") && is_refused(t, STAR_NO_OUTLETS)) t->answer[1] = STAR_NO_NETWORK;
    else if (fault("19-for-11") && is_refused(t, STAR_NO_NETWORK)) t->answer[1] = STAR_NO_OUTLETS;
    if (fault("11-before-7") && is_refused(t, STAR_BAD_SOURCE) &&
        lent_least(t, MARK).number == STAR_NO_NETWORK)
        t->answer[1] = STAR_NO_NETWORK;
    return said;
}
