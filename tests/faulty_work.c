/* Faults of the doors of working tables, and of those that change them. */
#include "doors.h"
#include "faulty.h"

const int has_faults = 1;

static int table_whole(const struct lent *t) {
    return t->len[IN_USE] == STAR_COLUMN_WORDS && t->len[LEFT] == STAR_MAX_ROWS &&
           t->len[RIGHT] == STAR_MAX_ROWS && t->len[WEIGHT] == 4 * STAR_MAX_ROWS;
}

static int is_whole(const struct lent *t) {
    return table_whole(t) && t->len[NUMBERS] == STAR_MAX_ROWS && t->len[ANSWER] == answer_len;
}

static void before_change(struct lent *t) {
    int unanswered = t->len[ANSWER] != answer_len, marks = t->len[MARK] == STAR_MAX_ROWS;
    struct call c = lent_call(t);
    struct numbers to = {t->numbers, STAR_MAX_ROWS};
    if (t->door == STRIKE && fault("strike-next-row")) t->at++;
    if (t->door == ADD && fault("add-without-packing") && is_whole(t))
        star_set_in_use(t->in_use, STAR_MAX_ROWS, 0);
    if (t->door == ADD && fault("add-always-packs") && is_whole(t))
        plain_merge(*lent_in_use(t), &c, to, t->answer, answer_len);
    if (t->door == MERGE && fault("merge-without-an-answer") && unanswered) t->numbers[0] ^= 1;
    if (t->door == MERGE && fault("merge-writes-and-refuses") && table_whole(t) && !is_whole(t))
        t->left[0] ^= 1;
    if (t->door == CARRY && fault("carry-without-an-answer") && unanswered && marks)
        t->mark[0] ^= 1;
    if (t->door == MST1 && fault("work-built-and-refused") && marks) t->mark[STAR_MAX_ROWS - 1] = 0;
}

void fault_before(struct lent *t) {
    if (t->door >= MST1) before_change(t);
    if (t->door > MST1) return;
    if (fault("work-last-row-left-out")) star_set_in_use(t->in_use, STAR_MAX_ROWS, 0);
    if (fault("work-all-rows")) memset(t->in_use, 255, 8 * STAR_COLUMN_WORDS);
    if (fault("work-first-words")) memset(t->in_use + 1, 0, 8 * (STAR_COLUMN_WORDS - 1));
}

static void after_strike(struct lent *t) {
    if (fault("strike-lengths-first") && t->len[IN_USE] != STAR_COLUMN_WORDS)
        t->answer[1] = STAR_BAD_LENGTHS;
    if (fault("strike-place") && !is_passed(t)) t->answer[2] = (uint8_t)t->at;
    if (!is_passed(t)) return;
    if (fault("strike-nothing")) star_set_in_use(t->in_use, t->at, 1);
    if (fault("strike-the-word")) t->in_use[(t->at - 1) / 64] = 0;
    if (fault("strike-amount")) t->answer[8] = 1;
}

static void after_restore(struct lent *t) {
    if (fault("restore-lengths-first") && t->len[IN_USE] != STAR_COLUMN_WORDS)
        t->answer[1] = STAR_BAD_LENGTHS;
    if (fault("restore-as-strike") && is_refused(t, STAR_NOT_STRUCK))
        t->answer[1] = STAR_NOT_IN_USE;
    if (fault("restore-outside-done") && is_refused(t, STAR_NOT_STRUCK) &&
        (t->at < 1 || t->at > STAR_MAX_ROWS)) {
        t->answer[0] = STAR_PASSED;
        t->answer[1] = 0;
    }
    if (!is_passed(t) || t->at < 1 || t->at > STAR_MAX_ROWS) return;
    if (fault("restore-nothing")) star_set_in_use(t->in_use, t->at, 0);
    if (fault("restore-next-row")) star_set_in_use(t->in_use, t->at % STAR_MAX_ROWS + 1, 1);
    if (fault("restore-the-word")) t->in_use[(t->at - 1) / 64] = ~(uint64_t)0;
    if (fault("restore-amount")) t->answer[8] = 1;
}

/* The total, with rows that are not in use, or without the last of them, or as 32 bits. */
static void after_total(struct lent *t) {
    int64_t total = star_read_answer(t->answer).amount;
    size_t row;
    if (fault("total-asks-for-a-tree") && is_passed(t) && lent_judged(t).kind == STAR_REFUSED)
        put_refusal(t, STAR_BAD_MARK_COUNT, 0);
    if (!is_passed(t)) return;
    for (row = 1; row <= STAR_MAX_ROWS && fault("total-of-struck-rows"); row++)
        if (!star_in_use(t->in_use, row) && t->mark[row - 1] == 1)
            total += star_get_price(t->weight, row - 1);
    if (fault("total-of-32-bits")) total = (int32_t)(uint32_t)total;
    if (fault("total-without-sign") && total < 0) total = -total;
    put_amount(t, total);
}

/* The new row in use at another position. */
static void move_row(struct lent *t, size_t from, size_t to) {
    star_set_in_use(t->in_use, from, 0);
    star_set_in_use(t->in_use, to, 1);
}

static void after_add(struct lent *t) {
    size_t position = (size_t)star_read_answer(t->answer).amount, gap = 1;
    if (fault("add-lengths-first") && is_refused(t, STAR_TABLE_FULL) && !is_whole(t))
        t->answer[1] = STAR_BAD_LENGTHS;
    if (fault("add-refusal-as-done") && is_refused(t, STAR_TABLE_FULL)) {
        t->answer[0] = STAR_PASSED;
        t->answer[1] = 0;
        return;
    }
    if (!is_passed(t)) return;
    while (gap < position && star_in_use(t->in_use, gap)) gap++;
    if (fault("add-into-the-first-gap")) move_row(t, position, gap);
    if (fault("add-at-the-next")) move_row(t, position, position % STAR_MAX_ROWS + 1);
    if (fault("add-numbers-the-new-row")) t->numbers[position - 1] = (uint32_t)position;
    if (fault("add-price-of-0")) star_put_price(t->weight, position - 1, 0);
    if (fault("add-ends-swapped"))
        put_row(t->left, t->right, t->weight, position, t->b, t->a, t->price);
    if (fault("add-position-as-place")) {
        memcpy(t->answer + 2, t->answer + 8, 2);
        put_amount(t, 0);
    }
}

static void after_merge(struct lent *t, const struct lent *before) {
    size_t used = 0, row;
    if (!is_passed(t)) return;
    while (used < STAR_MAX_ROWS && star_in_use(t->in_use, used + 1)) used++;
    if (fault("merge-rest-kept") && used < STAR_MAX_ROWS) t->left[used] = 1;
    if (fault("merge-last-row")) t->right[STAR_MAX_ROWS - 1] ^= 1;
    if (fault("merge-bits-kept")) restore_rows(t, before);
    for (row = 1; row <= STAR_MAX_ROWS; row++) {
        int moved = star_in_use(before->in_use, row);
        if (fault("merge-numbers-of-others") && !moved) t->numbers[row - 1] = (uint32_t)row;
        if (fault("merge-old-numbers") && moved) t->numbers[row - 1] = (uint32_t)row;
    }
    for (row = 0; fault("merge-reversed") && row < used / 2; row++) {
        uint8_t kept = t->left[row];
        t->left[row] = t->left[used - 1 - row];
        t->left[used - 1 - row] = kept;
    }
}

static void after_carry(struct lent *t, const struct lent *before) {
    size_t row;
    if (fault("carry-writes-and-refuses") && !is_passed(t) && t->len[MARK] == STAR_MAX_ROWS)
        t->mark[0] ^= 1;
    if (!is_passed(t)) return;
    if (fault("carry-amount")) t->answer[8] = 1;
    if (fault("carry-nothing")) memcpy(t->mark, before->mark, sizeof t->mark);
    for (row = 1; row <= STAR_MAX_ROWS; row++) {
        uint32_t to = t->numbers[row - 1];
        if (fault("carry-ones-elsewhere")) t->mark[row - 1] |= !t->mark[row - 1];
        if (fault("carry-rows-without-a-number") && to == 0) t->mark[0] = before->mark[row - 1];
        if (to < 1 || to > STAR_MAX_ROWS) continue;
        if (fault("carry-the-lower-row")) t->mark[to - 1] = before->mark[row - 1];
        if (fault("carry-upwards-only") && to > row) t->mark[to - 1] = 0;
    }
}

/* The marks at rows not in use looked at as those in use are. */
static void look_at_marks(struct lent *t) {
    size_t row;
    int told_before = t->answer[0] == STAR_REFUSED && t->answer[1] <= STAR_BAD_LENGTHS;
    for (row = 1; row <= STAR_MAX_ROWS && !told_before; row++) {
        if (t->mark[row - 1] <= 1) continue;
        put_refusal(t, STAR_BAD_MARK, row);
        return;
    }
}

static void after_procedure(struct lent *t, const struct lent *before) {
    size_t row;
    if (fault("work-marks-looked-at") && (t->door == CST || t->door == OTHER)) look_at_marks(t);
    if (!is_passed(t)) return;
    if (t->door == CST && fault("work-always-only")) t->answer[6] = 1;
    if (t->door == OTHER && fault("work-other-lacking")) memset(t->answer + 2, 0, 4);
    if (t->door == PATHS && fault("work-paths-first-column")) t->matrix[0] ^= 1;
    for (row = 1; row <= STAR_MAX_ROWS && fault("work-old-marks-kept") && t->door == MST1; row++)
        if (!star_in_use(t->in_use, row)) t->mark[row - 1] = before->mark[row - 1];
}

uint32_t fault_after(struct lent *t, struct lent *before, uint32_t said) {
    if (t->door <= MST1) restore_rows(t, before);
    if (!said) return said;
    if (t->door <= MST1) after_procedure(t, before);
    if (t->door == STRIKE) after_strike(t);
    if (t->door == RESTORE) after_restore(t);
    if (t->door == TOTAL) after_total(t);
    if (t->door == ADD) after_add(t);
    if (t->door == MERGE) after_merge(t, before);
    if (t->door == CARRY) after_carry(t, before);
    return said;
}
