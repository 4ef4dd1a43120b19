/* Faults of the doors of plain tables. */
#include "doors.h"
#include "faulty.h"

const int has_faults = 1;

void fault_before(struct lent *t) {
    if (fault("paths-from-one") && t->door == PATHS && t->at > 1 && t->at <= t->n) t->at = 1;
}

/* An answer of star_cst or star_other, spoilt. */
static void spoil(struct lent *t) {
    if (fault("always-only") && is_passed(t)) t->answer[6] = 1;
    if (fault("never-only") && is_passed(t)) t->answer[6] = 0;
    if (fault("only-swapped") && is_passed(t)) t->answer[6] ^= 1;
    if (fault("only-and-lighter") && t->answer[0] == STAR_LIGHTER) t->answer[6] = 1;
    if (fault("only-and-refused") && t->answer[0] == STAR_REFUSED) t->answer[6] = 1;
    if (fault("repeat-at-an-end") && is_refused(t, STAR_REPEATED_ROW)) t->answer[1] = STAR_BAD_END;
    if (fault("repeat-above") && is_refused(t, STAR_REPEATED_ROW)) t->answer[2]--;
}

/* The exchange that star_other names, spoilt. */
static void spoil_exchange(struct lent *t) {
    uint8_t out = t->answer[2];
    if (!is_passed(t) || t->answer[6]) return;
    if (fault("other-rows-lacking")) memset(t->answer + 2, 0, 4);
    if (fault("other-next-row")) t->answer[4]++;
    if (fault("other-rows-swapped")) {
        t->answer[2] = t->answer[4];
        t->answer[4] = out;
    }
}

static void spoil_paths(struct lent *t) {
    size_t used = STAR_COLUMN_WORDS * (size_t)t->n;
    if (fault("paths-refusal-as-done") && !is_passed(t)) t->answer[0] = STAR_PASSED;
    else if (fault("paths-last-column") && is_passed(t)) t->matrix[used - STAR_COLUMN_WORDS] ^= 1;
    else if (fault("paths-past-the-matrix") && is_passed(t)) t->matrix[used] ^= 1;
}

uint32_t fault_after(struct lent *t, struct lent *before, uint32_t said) {
    (void)before;
    if (!said) return said;
    if (t->door == CST || t->door == OTHER) spoil(t);
    if (t->door == OTHER) spoil_exchange(t);
    if (t->door == PATHS) spoil_paths(t);
    if (t->door == TOTAL && fault("total-of-the-first-row-lost") && is_passed(t) &&
        t->len[LEFT] > 0 && t->mark[0] == 1)
        put_amount(t, star_read_answer(t->answer).amount - star_get_price(t->weight, 0));
    if (t->door == TOTAL && fault("total-place-lost") && is_refused(t, STAR_BAD_MARK))
        t->answer[2] ^= 1;
    if (t->door == MST1 && fault("only-and-built") && is_passed(t)) t->answer[6] = 1;
    return said;
}
