/* Faults of the doors that give the dearest of each detour. */
#include "faulty.h"
#include "plain_detours.h"

const int has_faults = 1;

void fault_before(struct lent *t) {
    size_t i;
    if (fault("marks-turned"))
        for (i = 0; i < LENT_ROWS; i++)
            if (t->mark[i] <= 1) t->mark[i] ^= 1;
}

/* The number of a marked or of an unmarked row, spoilt. */
static void spoil(struct lent *t, const struct lent *before, const struct rows *r) {
    size_t k, other;
    for (k = 0; k < r->m; k++) {
        uint32_t row = (uint32_t)r->row[k], *number = &t->numbers[row - 1];
        int marked = before->mark[row - 1];
        if (fault("own-row") && !marked) *number = row;
        if (fault("none-replaces") && marked) *number = 0;
        if (fault("index-for-row") && *number) --*number;
        /* the lowest of equals */
        for (other = 0; other < r->m && *number; other++) {
            uint32_t with = (uint32_t)r->row[other];
            if (marked ? !fault("lowest-replaces") : !fault("lowest-dearest")) break;
            if (before->mark[with - 1] != marked && with > *number &&
                star_get_price(t->weight, with - 1) == star_get_price(t->weight, *number - 1))
                *number = with;
        }
        /* the dearest of all marked rows, on the way or not */
        for (other = 0; other < r->m && !marked && fault("any-dearest"); other++) {
            uint32_t with = (uint32_t)r->row[other];
            if (before->mark[with - 1] &&
                star_get_price(t->weight, with - 1) > star_get_price(t->weight, *number - 1))
                *number = with;
        }
    }
}

uint32_t fault_after(struct lent *t, struct lent *before, uint32_t said) {
    static struct rows r;
    size_t row;
    memcpy(t->mark, before->mark, sizeof t->mark);
    if (fault("written-unasked")) write_unasked(t);
    if (!said) return said;
    if (is_passed(t)) {
        lent_rows(t, &r);
        spoil(t, before, &r);
        for (row = 1; row <= lent_m(t) && fault("old-numbers-kept"); row++)
            if (!lent_used(t, row)) t->numbers[row - 1] = before->numbers[row - 1];
        if (fault("no-total")) put_amount(t, 0);
        if (fault("one-past-the-end")) t->numbers[lent_m(t)] ^= 1;
    }
    if (fault("written-and-refused") && !is_passed(t) && t->len[NUMBERS] > 0) t->numbers[0] ^= 1;
    if (fault("4-before-3") && is_refused(t, STAR_BAD_LENGTHS) && t->n > 0) {
        struct star_answer a = lent_judged(before);
        if (a.kind == STAR_REFUSED && a.number == STAR_BAD_END) put_refusal(t, a.number, a.out);
    }
    return said;
}
