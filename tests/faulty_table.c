/* The short calls over struct star_table with a fault each: a control of table_test, which has to
 * fail over every one of them and to pass over the fault 'none'. The test is compiled with the
 * calls' names replaced by those below; the environment's FAULT names the fault. */
#include "faulty_table.h"

#include "fault.h"

void faulty_table_init(struct star_table *t, uint32_t n) {
    uint32_t number = t->numbers[0];
    star_table_init(t, n);
    if (fault("init-keeps-numbers")) t->numbers[0] = number;
}

struct star_answer faulty_table_add(struct star_table *t, uint32_t a, uint32_t b, int32_t price) {
    uint8_t mark[STAR_MAX_ROWS];
    struct star_answer r;
    memcpy(mark, t->mark, sizeof mark);
    r = star_table_add(t, fault("add-end-cut") ? (uint8_t)a : a, b, price);
    if (r.kind != STAR_PASSED) return r;
    if (fault("add-marks-stay")) memcpy(t->mark, mark, sizeof mark);
    if (fault("add-marked")) t->mark[r.amount - 1] = 1;
    if (fault("add-counts-from-0")) r.amount--;
    return r;
}

int faulty_table_mark(struct star_table *t, uint32_t row, int mark) {
    int done = star_table_mark(t, row, mark);
    if (!done && fault("mark-not-in-use") && row >= 1 && row <= STAR_MAX_ROWS) t->mark[row - 1] = 1;
    if (done && fault("mark-as-given")) t->mark[row - 1] = (uint8_t)mark;
    return fault("mark-always-done") ? 1 : done;
}

struct star_answer faulty_table_strike(struct star_table *t, uint32_t row) {
    uint8_t before = row >= 1 && row <= STAR_MAX_ROWS ? t->mark[row - 1] : 0;
    struct star_answer r = star_table_strike(t, row);
    if (fault("strike-keeps-mark") && before) t->mark[row - 1] = before;
    return r;
}

struct star_answer faulty_table_merge(struct star_table *t) {
    uint8_t mark[STAR_MAX_ROWS];
    struct star_answer r;
    memcpy(mark, t->mark, sizeof mark);
    r = star_table_merge(t);
    if (fault("merge-marks-stay")) memcpy(t->mark, mark, sizeof mark);
    return r;
}

static struct star_verdict spoilt(struct star_verdict v) {
    if (v.kind == STAR_LIGHTER && fault("check-totals-swapped")) {
        int64_t total = v.total;
        v.total = v.least;
        v.least = total;
    }
    if (v.kind == STAR_LIGHTER && fault("check-least-by-saving")) v.least = v.total - v.saving;
    if (v.kind == STAR_LIGHTER && fault("check-saving-in-all")) v.saving = v.total - v.least;
    if (v.kind == STAR_PASSED && fault("check-least-lacking")) v.least = 0;
    if (v.kind == STAR_REFUSED && fault("check-place-as-out")) {
        v.out = v.place;
        v.place = 0;
    }
    return v;
}

struct star_verdict faulty_table_check(const struct star_table *t) {
    return spoilt(fault("check-as-other") ? star_table_other(t) : star_table_check(t));
}

struct star_verdict faulty_table_other(const struct star_table *t) {
    return spoilt(fault("other-as-check") ? star_table_check(t) : star_table_other(t));
}

struct star_verdict faulty_table_build(struct star_table *t) {
    static struct star_table copy;
    copy = *t;
    if (fault("build-marks-nothing")) return star_table_build(&copy);
    return star_table_build(t);
}

struct star_verdict faulty_table_mend(struct star_table *t, struct star_record *records) {
    struct star_verdict v;
    static struct star_record kept[STAR_MAX_STEPS];
    if (fault("mend-builds")) {
        v = star_table_mend(t, records);
        star_table_build(t);
        return v;
    }
    v = star_table_mend(t, fault("mend-no-records") && records ? kept : records);
    if (v.kind == STAR_PASSED && fault("mend-steps-as-total")) v.total = v.steps;
    if (v.kind == STAR_PASSED && fault("mend-no-steps")) v.steps = 0;
    return v;
}

struct star_verdict faulty_table_outlets(struct star_table *t, uint32_t junction, uint32_t count) {
    struct star_verdict v;
    if (fault("outlets-more")) count++;
    v = star_table_outlets(t, junction, count);
    if (fault("outlets-least")) v.least = v.total;
    return v;
}

struct star_verdict faulty_table_districts(struct star_table *t, const uint32_t *ends, size_t count,
                                           uint8_t *forests) {
    uint8_t kept[STAR_MAX_ROWS];
    struct star_verdict v;
    memcpy(kept, forests, sizeof kept);
    v = star_table_districts(t, ends, count, forests);
    if (fault("districts-no-forests")) memcpy(forests, kept, sizeof kept);
    if (fault("districts-marks") && v.kind == STAR_PASSED) memcpy(forests, t->mark, 1024);
    return v;
}

struct star_verdict faulty_table_which(const struct star_table *t, const uint8_t *first,
                                       const uint8_t *second) {
    struct star_verdict v = star_table_which(t, first, second);
    if (fault("which-swapped")) v = star_table_which(t, second, first);
    if (fault("which-first")) v.which = v.which ? 1 : 0;
    return v;
}

struct star_quoted faulty_table_quote(const struct star_table *t, uint32_t row, int32_t price) {
    struct star_quoted q = star_table_quote(t, row, price);
    if (fault("quote-before-twice")) q.after = q.before;
    return q;
}

struct star_answer faulty_table_breaking(const struct star_table *t, uint32_t row) {
    return star_table_breaking(t, row + (uint32_t)fault("breaking-next-row"));
}

struct star_answer faulty_table_digs(const struct star_table *t, uint8_t *text) {
    struct star_answer r = star_table_digs(t, text);
    if (fault("digs-zero-behind") && r.kind == STAR_PASSED) text[r.amount] = 0;
    if (fault("digs-last-byte") && r.kind == STAR_PASSED) r.amount--;
    return r;
}

struct star_answer faulty_table_plan_digs(const struct star_table *t, uint8_t *text) {
    struct star_answer r;
    if (fault("plan-digs-of-a-least-one")) return star_table_digs(t, text);
    r = star_table_plan_digs(t, text);
    if (fault("plan-digs-zero-behind") && r.kind == STAR_PASSED) text[r.amount] = 0;
    return r;
}

struct star_answer faulty_table_total(const struct star_table *t) {
    struct star_answer r = star_table_total(t);
    if (fault("total-one-more") && r.kind == STAR_PASSED) r.amount++;
    if (fault("total-of-a-network") && star_table_check(t).kind == STAR_REFUSED) r.amount = 0;
    return r;
}

struct star_verdict faulty_table_best(const struct star_table *t) {
    struct star_verdict v = fault("best-as-check") ? star_table_check(t) : star_table_best(t);
    if (v.kind == STAR_LIGHTER && fault("best-least-by-saving")) v.least = v.total - v.saving;
    if (v.kind == STAR_LIGHTER && fault("best-total-lacking")) v.total = 0;
    return v;
}

struct star_answer faulty_table_detours(const struct star_table *t, uint32_t *rows) {
    uint32_t last = rows[STAR_MAX_ROWS - 1];
    struct star_answer r = star_table_detours(t, rows);
    if (r.kind == STAR_PASSED && fault("detours-behind")) rows[STAR_MAX_ROWS - 1] = last;
    if (r.kind == STAR_PASSED && fault("detours-from-0") && rows[0]) rows[0]--;
    return r;
}

struct star_answer faulty_table_groups(const struct star_table *t, uint8_t *groups,
                                       uint8_t *rings) {
    uint8_t last = rings[STAR_MAX_ROWS - 1], first = groups[0];
    struct star_answer r = star_table_groups(t, groups, rings);
    if (r.kind == STAR_PASSED && fault("groups-rings-behind")) rings[STAR_MAX_ROWS - 1] = last;
    if (r.kind == STAR_PASSED && fault("groups-first-kept")) groups[0] = first;
    if (r.kind == STAR_REFUSED && fault("groups-refused-clears")) rings[0] = 0;
    return r;
}

struct star_answer faulty_table_restore(struct star_table *t, uint32_t row) {
    struct star_answer r = star_table_restore(t, row + (uint32_t)fault("restore-next-row"));
    if (fault("restore-marks") && r.kind == STAR_PASSED) t->mark[row - 1] = 1;
    return r;
}

struct star_answer faulty_table_paths(const struct star_table *t, uint32_t from, uint64_t *matrix) {
    return star_table_paths(t, fault("paths-from-one") && from <= t->n ? 1 : from, matrix);
}

struct star_imported faulty_table_read(struct star_table *t, const char *text, size_t len) {
    static struct star_table before;
    struct star_imported i;
    before = *t;
    i = star_table_read(t, text, len);
    if (i.kind == STAR_REFUSED && fault("read-place-lacking")) i.place = 0;
    if (i.kind == STAR_PASSED && fault("read-struck-in-use")) memset(t->in_use, 255, 3);
    if (i.kind == STAR_REFUSED && fault("read-refused-clears")) star_table_init(t, t->n);
    if (i.kind == STAR_PASSED && fault("read-keeps-marks")) memcpy(t->mark, before.mark, 1024);
    if (i.kind == STAR_PASSED && fault("read-keeps-n")) t->n = before.n;
    if (i.kind == STAR_PASSED && fault("read-one-row-more")) star_set_in_use(t->in_use, i.m + 1, 1);
    return i;
}

size_t faulty_table_write(const struct star_table *t, char *text, size_t size) {
    static char whole[STAR_MAX_TABLE_TEXT];
    size_t len = star_table_write(t, whole, sizeof whole);
    char *mark;
    if (fault("write-cut") && size > 0 && size <= len) memcpy(text, whole, size);
    if (fault("write-without-end") && len < size) {
        memcpy(text, whole, len);
        return len;
    }
    star_table_write(t, text, size);
    if (fault("write-no-marks") && len < size)
        while ((mark = strstr(text, " 1\n")) != NULL) mark[1] = '0';
    return len + (size_t)fault("write-counts-zero-byte");
}
