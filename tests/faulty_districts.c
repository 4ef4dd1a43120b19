/* Faults of the doors of districts. */
#include "faulty.h"

const int has_faults = 1;

/* Ends that a faulty door takes in place of those lent. */
void fault_before(struct lent *t) {
    size_t m = lent_m(t), i, kept = 0;
    uint32_t *last;
    for (i = 0; i < t->len[ENDS]; i++) {
        if (fault("equal-ends-taken") && kept > 0 && t->ends[i] == t->ends[kept - 1]) continue;
        if (fault("end-of-0-taken") && kept == 0 && t->ends[i] == 0) continue;
        t->ends[kept++] = t->ends[i];
    }
    if (fault("nine-taken") && kept == 9) kept = 8;
    last = &t->ends[kept ? kept - 1 : 0];
    if (fault("nine-taken") && t->len[ENDS] == 9) *last = (uint32_t)m;
    if (fault("last-below-taken") && kept > 0 && *last < m) *last = (uint32_t)m;
    if (fault("last-above-taken") && kept > 0 && *last > m) *last = (uint32_t)m;
    if (fault("low-bytes-of-ends") && kept > 0) *last &= 0xffff;
    if (fault("none-taken") && kept == 0 && m > 0) t->ends[kept++] = (uint32_t)m;
    if (fault("0-of-none-taken") && kept == 1 && m == 0 && *last == 0) kept = 0;
    if (fault("run-too-long") && kept > 1 && t->ends[0] + 1 < t->ends[1]) t->ends[0]++;
    if (fault("one-run") && kept > 1) {
        t->ends[0] = *last;
        kept = 1;
    }
    t->len[ENDS] = kept;
    if (fault("length-not-seen") && t->len[FORESTS] == m + 1) t->len[FORESTS]--;
}

/* The first row whose forest has it or not, changed. */
static void change_forest(struct lent *t, int ring) {
    size_t row;
    for (row = 1; row <= lent_m(t); row++) {
        if (!lent_used(t, row) || t->mark[row - 1] || t->forests[row - 1] == ring) continue;
        t->forests[row - 1] ^= 1;
        return;
    }
}

/* What a call of districts leaves, spoilt. */
static void spoil(struct lent *t, const struct lent *before) {
    size_t m = lent_m(t), row;
    if (fault("ring")) change_forest(t, 1);
    if (fault("forest-lacking")) change_forest(t, 0);
    if (fault("forests-are-the-tree")) memcpy(t->forests, t->mark, m);
    if (fault("tree-is-the-forests")) memcpy(t->mark, t->forests, m);
    for (row = 1; row <= m && fault("old-bytes-kept"); row++)
        if (!lent_used(t, row)) t->forests[row - 1] = before->forests[row - 1];
    if (fault("total-of-forests")) put_amount(t, lent_sum(t, t->forests));
    if (fault("byte-past-the-end")) t->forests[m] ^= 1;
    if (fault("byte-6")) t->answer[6] = 1;
}

uint32_t fault_after(struct lent *t, struct lent *before, uint32_t said) {
    memcpy(t->ends, before->ends, sizeof t->ends);
    if (!said) return said;
    if (is_passed(t)) spoil(t, before);
    if (fault("written-and-refused") && is_refused(t, STAR_NO_NETWORK)) t->forests[0] ^= 1;
    if (fault("11-before-14") && is_refused(t, STAR_BAD_RUNS) &&
        lent_least(t, FORESTS).number == STAR_NO_NETWORK)
        t->answer[1] = STAR_NO_NETWORK;
    return said;
}
