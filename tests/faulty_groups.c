/* Faults of the doors of groups and rings. */
#include "faulty.h"

const int has_faults = 1;

void fault_before(struct lent *t) {
    size_t m = lent_m(t), i;
    for (i = 1; i <= m && i <= STAR_MAX_ROWS; i++) {
        if (fault("byte-2-is-a-mark") && lent_used(t, i) && t->mark[i - 1] == 2) t->mark[i - 1] = 1;
        if (fault("byte-2-is-no-mark") && lent_used(t, i) && t->mark[i - 1] > 1) t->mark[i - 1] = 0;
    }
    if (fault("last-row-not-seen") && m > 0 && m <= STAR_MAX_ROWS && t->mark[m - 1] == 1)
        t->mark[m - 1] = 0;
    if (fault("rows-not-in-use-seen") && t->working)
        for (i = 0; i < STAR_COLUMN_WORDS; i++)
            if (t->in_use[i]) t->in_use[i] |= t->in_use[i] >> 1;
    if (fault("rings-length-not-seen") && t->len[RINGS] == m + 1) t->len[RINGS]--;
    if (fault("groups-length-not-seen") && t->len[GROUPS] == t->n + 1) t->len[GROUPS]--;
}

/* Of the rows that close a ring the last alone is left. */
static void last_ring_alone(struct lent *t) {
    size_t m = lent_m(t), i, kept = 0;
    for (i = m; i > 0; i--)
        if (t->rings[i - 1] && kept++) t->rings[i - 1] = 0;
}

static void spoil(struct lent *t, const struct lent *before) {
    size_t m = lent_m(t), i;
    unsigned v;
    if (fault("closing-rows-alone")) last_ring_alone(t);
    if (fault("every-mark-in-a-ring") && t->answer[4])
        for (i = 1; i <= m; i++) t->rings[i - 1] |= lent_used(t, i) && t->mark[i - 1] == 1;
    for (v = 0; v < t->n; v++) {
        if (fault("groups-from-0")) t->groups[v]--;
        if (fault("largest-of-a-group")) {
            unsigned u;
            for (u = t->n; u > v + 1 && t->groups[u - 1] != t->groups[v]; u--) continue;
            if (t->groups[v] == v + 1 && u > v + 1) t->groups[v] = (uint8_t)u;
        }
    }
    for (i = 1; i <= m && fault("old-bytes-kept"); i++)
        if (!lent_used(t, i)) t->rings[i - 1] = before->rings[i - 1];
    if (fault("number-of-groups")) put_amount(t, star_read_answer(t->answer).amount + 1);
    if (fault("number-of-rings") && t->answer[4]) t->answer[4]--;
    if (fault("number-of-rings-in-out")) {
        t->answer[2] = t->answer[4];
        t->answer[4] = 0;
    }
    if (fault("groups-past-the-end")) t->groups[t->n] ^= 1;
    if (fault("rings-past-the-end")) t->rings[m] ^= 1;
    if (fault("marks-changed") && m) t->mark[0] ^= 1;
    if (fault("byte-6")) t->answer[6] = 1;
}

uint32_t fault_after(struct lent *t, struct lent *before, uint32_t said) {
    memcpy(t->mark, before->mark, sizeof t->mark);
    restore_rows(t, before);
    if (fault("written-unasked")) write_unasked(t);
    if (!said) return said;
    if (is_passed(t)) spoil(t, before);
    if (fault("written-and-refused") && is_refused(t, STAR_BAD_MARK)) t->groups[0] ^= 1;
    if (fault("6-before-15") && is_refused(t, STAR_REPEATED_ROW)) {
        size_t i, m = lent_m(t);
        for (i = 1; i <= m; i++)
            if (lent_used(t, i) && t->mark[i - 1] > 1) {
                put_refusal(t, STAR_BAD_MARK, i);
                break;
            }
    }
    if (fault("place-of-6") && is_refused(t, STAR_BAD_MARK)) t->answer[2]++;
    return said;
}
