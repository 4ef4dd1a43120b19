/* Faults of the doors of quotes. */
#include "faulty.h"

const int has_faults = 1;

/* The row's price added where the new one should be put in its place. */
static void add_price(struct lent *t) {
    int64_t sum = t->price;
    if (t->at < 1 || t->len[WEIGHT] / 4 < t->at) return;
    sum += star_get_price(t->weight, t->at - 1);
    if (sum >= STAR_MIN_PRICE && sum <= STAR_MAX_PRICE) t->price = (int32_t)sum;
}

void fault_before(struct lent *t) {
    if (fault("written-without-an-answer")) write_unasked(t);
    if (fault("price-added")) add_price(t);
    if (fault("price-without-sign") && t->price < 0) t->price = STAR_MAX_PRICE;
    if (fault("low-byte-alone")) t->price &= 255;
    if (fault("struck-row-taken") && t->at >= 1 && t->at <= STAR_MAX_ROWS)
        star_set_in_use(t->in_use, t->at, 1);
    if (fault("all-rows-in-use")) memset(t->in_use, 255, 8 * STAR_COLUMN_WORDS);
    if (fault("last-row-taken") && t->at == lent_m(t) + 1) t->at--;
    if (fault("row-counted-from-0")) t->at++;
}

uint32_t fault_after(struct lent *t, struct lent *before, uint32_t said) {
    uint8_t first[8];
    memcpy(first, t->answer + 8, 8);
    restore_rows(t, before);
    if (!said) return said;
    if (fault("a-byte-past-the-answer")) t->answer[STAR_QUOTE_BYTES] ^= 1;
    if (fault("seven-after-eleven") && is_refused(t, STAR_BAD_SOURCE) && t->n == 5)
        t->answer[1] = STAR_NO_NETWORK;
    if (fault("place-of-the-row") && is_refused(t, STAR_BAD_SOURCE)) t->answer[2] = 1;
    if (fault("zero-returned") && !is_passed(t)) return 0;
    if (fault("refusal-as-done")) t->answer[0] = STAR_PASSED;
    if (!is_passed(t)) return said;
    if (fault("totals-swapped") || fault("both-after")) memcpy(t->answer + 8, t->answer + 16, 8);
    if (fault("totals-swapped") || fault("both-before")) memcpy(t->answer + 16, first, 8);
    if (fault("high-half-lost")) memset(t->answer + 20, 0, 4);
    if (fault("byte-6-set")) t->answer[6] = 1;
    return said;
}
