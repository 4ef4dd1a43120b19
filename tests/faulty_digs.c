/* Faults of the doors of dig lists; those of star_digs_text are its own, and star_plan_digs has
   some beside those of star_digs. */
#include "faulty.h"
#include "plain_asked.h"

const int has_faults = 1;

void fault_before(struct lent *t) {
    if (fault("all-rows-in-use")) memset(t->in_use, 255, 8 * STAR_COLUMN_WORDS);
}

static void spoil_text(struct lent *t) {
    if (fault("place-in-two-bytes") && !is_passed(t)) {
        memcpy(t->answer + 2, t->answer + 8, 2);
        put_amount(t, 0);
    }
    if (fault("text-refused-eleven") && !is_passed(t)) t->answer[1] = STAR_NO_NETWORK;
    if (fault("text-list-shortened") && is_passed(t)) t->answer[8] ^= 1;
}

/* A plan's list: that of a least network, a dearer plan refused, and refusals of the marks. */
static void spoil_plan(struct lent *t, const struct lent *before) {
    struct call c = lent_call((struct lent *)before);
    const struct in_use *u = lent_in_use((struct lent *)before);
    if (fault("least-network-listed") && is_passed(t))
        plain_digs(u, &c, t->text, t->len[TEXT], t->answer, t->len[ANSWER]);
    if (fault("dearer-plan-refused") && is_passed(t) && lent_judged(before).kind == STAR_LIGHTER) {
        memcpy(t->text, before->text, sizeof t->text);
        put_refusal(t, STAR_BAD_MARK_COUNT, 0);
    }
    if (fault("ring-as-count") && is_refused(t, STAR_NOT_JOINED))
        put_refusal(t, STAR_BAD_MARK_COUNT, 0);
    if (fault("place-of-a-mark-lost") && is_refused(t, STAR_BAD_MARK)) t->answer[2] ^= 1;
}

static uint32_t spoil_unwritten(struct lent *t) {
    int room = t->len[TEXT] >= STAR_MAX_LIST;
    if (fault("written-without-an-answer") && room) t->text[0] ^= 1;
    if (fault("short-text-written") && t->len[TEXT] > 0 && !room) t->text[0] ^= 1;
    return fault("one-returned");
}

uint32_t fault_after(struct lent *t, struct lent *before, uint32_t said) {
    size_t len = (size_t)star_read_answer(t->answer).amount;
    restore_rows(t, before);
    if (t->door == 1) {
        if (said) spoil_text(t);
        return said;
    }
    if (!said) return spoil_unwritten(t);
    if (t->door == 2) spoil_plan(t, before);
    if (fault("refusal-clears-the-text") && !is_passed(t)) t->text[0] = 0;
    if (fault("refusal-as-done") && !is_passed(t)) t->answer[0] = STAR_PASSED;
    if (!is_passed(t) || t->answer[1]) return said;
    if (fault("line-end-lost")) t->answer[8]--;
    if (fault("a-byte-past-the-list")) t->text[len] ^= 1;
    if (fault("total-misprinted")) t->text[len - 2] ^= 1;
    if (fault("first-byte-misprinted")) t->text[0] ^= 1;
    if (fault("carriage-return")) t->text[len - 1] = '\r';
    if (fault("byte-6-set")) t->answer[6] = 1;
    return said;
}
