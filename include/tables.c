/* Tables with all that belongs to them: short calls over the doors. No verdict, total or price is
   found here. What a working door writes as 0 at rows not in use, the plain one does not see. */
#include <string.h>

#include "lent.h"

void star_table_init(struct star_table *t, uint32_t n) {
    memset(t, 0, sizeof *t);
    t->n = n;
}

/* Moves the marks with their rows, where nothing was refused. */
static struct star_answer carried(struct star_table *t, const uint8_t answer[STAR_ANSWER_BYTES]) {
    struct star_answer a = star_read_answer(answer);
    if (a.kind == STAR_PASSED) star_carry_marks(t->mark, t->numbers);
    return a;
}

static uint8_t end_byte(uint32_t end) { return end > UINT8_MAX ? 0 : (uint8_t)end; }

struct star_answer star_table_add(struct star_table *t, uint32_t a, uint32_t b, int32_t price) {
    uint8_t answer[STAR_ANSWER_BYTES];
    star_add(t->in_use, STAR_COLUMN_WORDS, COLUMNS(t), t->numbers, STAR_MAX_ROWS, end_byte(a),
             end_byte(b), price, ANSWER(answer));
    return carried(t, answer);
}

int star_table_mark(struct star_table *t, uint32_t row, int mark) {
    if (row < 1 || row > STAR_MAX_ROWS || !star_in_use(t->in_use, row)) return 0;
    t->mark[row - 1] = mark != 0;
    return 1;
}

struct star_answer star_table_strike(struct star_table *t, uint32_t row) {
    uint8_t answer[STAR_ANSWER_BYTES];
    struct star_answer a;
    star_strike(t->in_use, STAR_COLUMN_WORDS, row, ANSWER(answer));
    a = star_read_answer(answer);
    if (a.kind == STAR_PASSED) t->mark[row - 1] = 0;
    return a;
}

struct star_answer star_table_restore(struct star_table *t, uint32_t row) {
    uint8_t answer[STAR_ANSWER_BYTES];
    struct star_answer a;
    star_restore(t->in_use, STAR_COLUMN_WORDS, row, ANSWER(answer));
    a = star_read_answer(answer);
    if (a.kind == STAR_PASSED) t->mark[row - 1] = 0;
    return a;
}

struct star_answer star_table_merge(struct star_table *t) {
    uint8_t answer[STAR_ANSWER_BYTES];
    star_merge(t->in_use, STAR_COLUMN_WORDS, COLUMNS(t), t->numbers, STAR_MAX_ROWS, ANSWER(answer));
    return carried(t, answer);
}

struct star_quoted star_table_quote(const struct star_table *t, uint32_t row, int32_t price) {
    uint8_t answer[STAR_QUOTE_BYTES];
    struct lent as = lent_as(t);
    ASK(t, as, quote, row, price, ANSWER(answer));
    return star_read_quoted(answer);
}

struct star_answer star_table_breaking(const struct star_table *t, uint32_t row) {
    uint8_t answer[STAR_ANSWER_BYTES];
    struct lent as = lent_as(t);
    ASK(t, as, breaking, row, ANSWER(answer));
    return star_read_answer(answer);
}

struct star_answer star_table_digs(const struct star_table *t, uint8_t *text) {
    uint8_t answer[STAR_ANSWER_BYTES];
    struct lent as = lent_as(t);
    ASK(t, as, digs, text, STAR_MAX_LIST, ANSWER(answer));
    return star_read_answer(answer);
}

struct star_answer star_table_plan_digs(const struct star_table *t, uint8_t *text) {
    uint8_t answer[STAR_ANSWER_BYTES];
    struct lent as = lent_as(t);
    ASK(t, as, plan_digs, t->mark, as.len, text, STAR_MAX_LIST, ANSWER(answer));
    return star_read_answer(answer);
}

struct star_answer star_table_total(const struct star_table *t) {
    uint8_t answer[STAR_ANSWER_BYTES];
    struct lent as = lent_as(t);
    ASK(t, as, total, t->mark, as.len, ANSWER(answer));
    return star_read_answer(answer);
}

struct star_answer star_table_detours(const struct star_table *t, uint32_t *rows) {
    uint8_t answer[STAR_ANSWER_BYTES];
    struct lent as = lent_as(t);
    ASK(t, as, detours, t->mark, as.len, rows, as.len, ANSWER(answer));
    if (answer[0] == STAR_PASSED) memset(rows + as.len, 0, (STAR_MAX_ROWS - as.len) * sizeof *rows);
    return star_read_answer(answer);
}

struct star_answer star_table_groups(const struct star_table *t, uint8_t *groups, uint8_t *rings) {
    uint8_t answer[STAR_ANSWER_BYTES];
    struct lent as = lent_as(t);
    ASK(t, as, groups, t->mark, as.len, groups, t->n, rings, as.len, ANSWER(answer));
    if (answer[0] == STAR_PASSED) memset(rings + as.len, 0, STAR_MAX_ROWS - as.len);
    return star_read_answer(answer);
}

struct star_answer star_table_paths(const struct star_table *t, uint32_t from, uint64_t *matrix) {
    uint8_t answer[STAR_ANSWER_BYTES];
    struct lent as = lent_as(t);
    size_t words = (size_t)t->n * STAR_COLUMN_WORDS;
    ASK(t, as, paths, t->mark, as.len, from, matrix, words, ANSWER(answer));
    return star_read_answer(answer);
}
