/* Faults of the doors of breaking prices. */
#include "faulty.h"

const int has_faults = 1;

void fault_before(struct lent *t) {
    if (fault("written-without-an-answer")) write_unasked(t);
    if (fault("struck-row-taken") && t->at >= 1 && t->at <= STAR_MAX_ROWS)
        star_set_in_use(t->in_use, t->at, 1);
    if (fault("all-rows-in-use")) memset(t->in_use, 255, 8 * STAR_COLUMN_WORDS);
    if (fault("last-row-taken") && t->at == lent_m(t) + 1) t->at--;
    if (fault("row-counted-from-0")) t->at++;
}

/* No price where the answer has one, and the other way about. */
static void spoil_none(struct lent *t) {
    if (fault("none-as-refusal") && t->answer[0] == STAR_NEVER) put_refusal(t, STAR_NO_NETWORK, 0);
    if (fault("none-as-the-largest-price") && t->answer[0] == STAR_NEVER) {
        t->answer[0] = STAR_PASSED;
        put_amount(t, STAR_MAX_PRICE);
    }
    if (fault("refusal-as-none") && t->answer[0] == STAR_REFUSED) {
        memset(t->answer, 0, STAR_ANSWER_BYTES);
        t->answer[0] = STAR_NEVER;
    }
}

uint32_t fault_after(struct lent *t, struct lent *before, uint32_t said) {
    int64_t own, amount = star_read_answer(t->answer).amount;
    restore_rows(t, before);
    if (!said) return said;
    if (fault("a-byte-past-the-answer")) t->answer[STAR_ANSWER_BYTES] ^= 1;
    if (fault("seven-after-eleven") && is_refused(t, STAR_BAD_SOURCE) && t->n == 5)
        t->answer[1] = STAR_NO_NETWORK;
    if (fault("zero-returned") && t->answer[0] == STAR_REFUSED) return 0;
    spoil_none(t);
    if (!is_passed(t) || !lent_used(t, t->at)) return said;
    own = star_get_price(t->weight, t->at - 1);
    if (fault("own-price-counted") && own > amount) put_amount(t, own);
    if (fault("own-price-where-it-is-less") && own < amount) put_amount(t, own);
    if (fault("one-too-much")) put_amount(t, amount + 1);
    if (fault("one-too-little")) put_amount(t, amount - 1);
    if (fault("without-sign") && amount < 0) put_amount(t, amount + 4294967296);
    if (fault("byte-6-set")) t->answer[6] = 1;
    return said;
}
