/* Faults of the doors that say which plan stands. */
#include "faulty.h"
#include "plain_asked.h"

const int has_faults = 1;

void fault_before(struct lent *t) {
    if (fault("written-without-an-answer")) write_unasked(t);
    if (fault("all-rows-in-use")) memset(t->in_use, 255, 8 * STAR_COLUMN_WORDS);
}

/* What is said of the two plans the other way about. */
static uint32_t turned(struct lent *t, uint8_t *answer) {
    struct call c = lent_call(t);
    struct marks first = {t->second, t->len[SECOND]}, second = {t->mark, t->len[MARK]};
    return plain_which(lent_in_use(t), &c, first, second, answer, STAR_ANSWER_BYTES);
}

/* Faults in which plan is asked about first. */
static uint32_t misordered(struct lent *t, uint32_t said) {
    uint8_t other[STAR_ANSWER_BYTES];
    uint32_t stands = turned(t, other);
    if (fault("refusals-of-the-second-first") && stands == 0) {
        memcpy(t->answer, other, sizeof other);
        return 0;
    }
    if (fault("the-second-on-a-tie") && stands == 1) {
        memcpy(t->answer, other, sizeof other);
        return 2;
    }
    if (fault("passed-demanded") && lent_judged(t).kind != STAR_PASSED) {
        t->answer[0] = (uint8_t)lent_judged(t).kind;
        return 0;
    }
    if (fault("lengths-first") && t->len[SECOND] != t->len[MARK]) {
        put_refusal(t, STAR_BAD_LENGTHS, 0);
        return 0;
    }
    return said;
}

uint32_t fault_after(struct lent *t, struct lent *before, uint32_t said) {
    restore_rows(t, before);
    if (t->len[ANSWER] != STAR_ANSWER_BYTES) return fault("one-without-an-answer") ? 1 : said;
    said = misordered(t, said);
    if (fault("a-byte-past-the-answer")) t->answer[STAR_ANSWER_BYTES] ^= 1;
    if (fault("one-on-a-refusal") && !is_passed(t)) return 1;
    if (fault("refusal-as-done")) t->answer[0] = STAR_PASSED;
    if (!said) return said;
    if (fault("byte-6-set")) t->answer[6] = 1;
    if (fault("weight-lost")) put_amount(t, 0);
    if (fault("the-heavier")) return 3 - said;
    return fault("always-the-first") ? 1 : said;
}
