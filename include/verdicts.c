/* Tables with all that belongs to them: the calls that speak of a plan. Both totals of a verdict
   come from doors. */
#include <string.h>

#include "lent.h"

/* The total of the marks. */
static int64_t total_of(const struct star_table *t, struct lent as) {
    uint8_t answer[STAR_ANSWER_BYTES];
    ASK(t, as, total, t->mark, as.len, ANSWER(answer));
    return star_read_answer(answer).amount;
}

static int64_t least_of(const struct star_table *t, struct lent as) {
    uint8_t answer[STAR_ANSWER_BYTES], mark[STAR_MAX_ROWS];
    ASK(t, as, mst1, mark, as.len, ANSWER(answer));
    return star_read_answer(answer).amount;
}

/* The working doors that build write 0 at rows not in use, which the plain ones do not see. */
static void clear_behind(struct star_table *t, struct lent as, const uint8_t *answer) {
    if (answer[0] == STAR_PASSED) memset(t->mark + as.len, 0, STAR_MAX_ROWS - as.len);
}

/* What every verdict has. */
static struct star_verdict verdict_of(struct star_answer a) {
    struct star_verdict v;
    memset(&v, 0, sizeof v);
    v.kind = a.kind;
    v.number = a.number;
    if (a.kind == STAR_REFUSED) v.place = a.out;
    return v;
}

/* The verdict on the table's marks. */
static struct star_verdict judged(const struct star_table *t, struct lent as,
                                  const uint8_t *answer) {
    struct star_answer a = star_read_answer(answer);
    struct star_verdict v = verdict_of(a);
    if (a.kind == STAR_REFUSED) return v;
    v.only = a.only;
    v.out = a.out;
    v.in = a.in;
    if (a.kind == STAR_LIGHTER) {
        v.saving = a.amount;
        v.total = total_of(t, as);
        v.least = least_of(t, as);
    } else {
        v.total = v.least = a.amount;
    }
    return v;
}

struct star_verdict star_table_check(const struct star_table *t) {
    uint8_t answer[STAR_ANSWER_BYTES];
    struct lent as = lent_as(t);
    ASK(t, as, cst, t->mark, as.len, ANSWER(answer));
    return judged(t, as, answer);
}

struct star_verdict star_table_other(const struct star_table *t) {
    uint8_t answer[STAR_ANSWER_BYTES];
    struct lent as = lent_as(t);
    ASK(t, as, other, t->mark, as.len, ANSWER(answer));
    return judged(t, as, answer);
}

struct star_verdict star_table_best(const struct star_table *t) {
    uint8_t answer[STAR_BEST_BYTES];
    struct star_answer a;
    struct star_verdict v;
    struct lent as = lent_as(t);
    ASK(t, as, best, t->mark, as.len, ANSWER(answer));
    a = star_read_answer(answer);
    v = verdict_of(a);
    if (a.kind == STAR_REFUSED) return v;
    v.out = a.out;
    v.in = a.in;
    v.least = star_read_answer(answer + 8).amount;
    v.saving = a.kind == STAR_LIGHTER ? a.amount : 0;
    v.total = a.kind == STAR_LIGHTER ? total_of(t, as) : a.amount;
    return v;
}

struct star_verdict star_table_build(struct star_table *t) {
    uint8_t answer[STAR_ANSWER_BYTES];
    struct lent as = lent_as(t);
    ASK(t, as, mst1, t->mark, as.len, ANSWER(answer));
    clear_behind(t, as, answer);
    return judged(t, as, answer);
}

struct star_verdict star_table_mend(struct star_table *t, struct star_record *records) {
    struct star_record unwanted[STAR_MAX_STEPS];
    uint8_t answer[STAR_ANSWER_BYTES];
    struct star_answer a;
    struct star_verdict v;
    struct lent as = lent_as(t);
    if (!records) records = unwanted;
    ASK(t, as, mend, t->mark, as.len, records, STAR_MAX_STEPS, ANSWER(answer));
    a = star_read_answer(answer);
    v = verdict_of(a);
    if (a.kind == STAR_REFUSED) return v;
    v.steps = (unsigned)a.amount;
    v.total = v.least = total_of(t, as);
    return v;
}

struct star_verdict star_table_outlets(struct star_table *t, uint32_t junction, uint32_t count) {
    uint8_t answer[STAR_ANSWER_BYTES];
    struct star_answer a;
    struct star_verdict v;
    struct lent as = lent_as(t);
    ASK(t, as, outlets, t->mark, as.len, junction, count, ANSWER(answer));
    clear_behind(t, as, answer);
    a = star_read_answer(answer);
    v = verdict_of(a);
    if (a.kind == STAR_PASSED) v.total = a.amount;
    return v;
}

struct star_verdict star_table_districts(struct star_table *t, const uint32_t *ends, size_t count,
                                         uint8_t *forests) {
    uint8_t answer[STAR_ANSWER_BYTES];
    star_work_districts(ROWS(t), ends, count, forests, STAR_MAX_ROWS, LENT(t->mark),
                        ANSWER(answer));
    return judged(t, lent_as(t), answer);
}

struct star_verdict star_table_which(const struct star_table *t, const uint8_t *first,
                                     const uint8_t *second) {
    uint8_t answer[STAR_ANSWER_BYTES];
    struct star_answer a;
    struct star_verdict v;
    struct lent as = lent_as(t);
    uint32_t which = ASK(t, as, which, first, as.len, second, as.len, ANSWER(answer));
    a = star_read_answer(answer);
    v = verdict_of(a);
    if (a.kind == STAR_REFUSED) return v;
    v.which = which;
    v.total = a.amount;
    return v;
}
