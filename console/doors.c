/* Asks the doors about a table: those of working tables where a trench is struck, and else the
   plain ones. */
#include <stdlib.h>
#include <string.h>

#include "table.h"

/* How a table is lent: as a working one or a plain one, and the length of its columns. */
struct lent {
    int working;
    size_t m;
    uint64_t in_use[STAR_COLUMN_WORDS];
};

#define COLUMNS(t, m) (t)->left, (m), (t)->right, (m), (t)->weight, 4 * (m)
#define MARKS(t, as) (t)->mark, (as).m
#define ROWS(as) (as).in_use, STAR_COLUMN_WORDS

/* star_DOOR or star_work_DOOR over a table, with what else it takes. */
#define ASK(t, as, door, ...) \
    ((as).working ? star_work_##door((t)->n, ROWS(as), COLUMNS(t, (as).m), __VA_ARGS__) \
                  : star_##door((t)->n, COLUMNS(t, (as).m), __VA_ARGS__))

static struct lent lent_as(const struct table *t) {
    struct lent as = {0, t->m, {0}};
    size_t i;
    for (i = table_next(t, 0); i <= t->m; i = table_next(t, i)) star_set_in_use(as.in_use, i, 1);
    as.working = t->strikes > 0;
    if (as.working) as.m = STAR_MAX_ROWS;
    return as;
}

struct star_answer table_cst(const struct table *t) {
    uint8_t answer[STAR_ANSWER_BYTES];
    struct lent as = lent_as(t);
    ASK(t, as, cst, MARKS(t, as), answer, sizeof answer);
    return star_read_answer(answer);
}

struct star_answer table_other(const struct table *t) {
    uint8_t answer[STAR_ANSWER_BYTES];
    struct lent as = lent_as(t);
    ASK(t, as, other, MARKS(t, as), answer, sizeof answer);
    return star_read_answer(answer);
}

struct best table_best(const struct table *t) {
    uint8_t answer[STAR_BEST_BYTES];
    struct lent as = lent_as(t);
    struct best best;
    ASK(t, as, best, MARKS(t, as), answer, sizeof answer);
    best.answer = star_read_answer(answer);
    best.least = star_read_answer(answer + 8).amount;
    return best;
}

struct star_answer table_judged(const struct table *t) {
    struct star_answer a = table_cst(t);
    return a.kind == STAR_LIGHTER ? table_best(t).answer : a;
}

struct star_answer table_paths(const struct table *t, uint32_t from, uint64_t *matrix,
                               size_t words) {
    uint8_t answer[STAR_ANSWER_BYTES];
    struct lent as = lent_as(t);
    ASK(t, as, paths, MARKS(t, as), from, matrix, words, answer, sizeof answer);
    return star_read_answer(answer);
}

struct star_answer table_mst1(struct table *t) {
    uint8_t answer[STAR_ANSWER_BYTES];
    struct lent as = lent_as(t);
    ASK(t, as, mst1, MARKS(t, as), answer, sizeof answer);
    return star_read_answer(answer);
}

/* A trench's number as the doors take it; one that is too large is no trench's. */
static uint32_t row_of(size_t i) { return i > UINT32_MAX ? UINT32_MAX : (uint32_t)i; }

struct star_quoted table_quote(const struct table *t, size_t i, const uint8_t price[PRICE_BYTES]) {
    uint8_t answer[STAR_QUOTE_BYTES];
    struct lent as = lent_as(t);
    ASK(t, as, quote, row_of(i), star_get_price(price, 0), answer, sizeof answer);
    return star_read_quoted(answer);
}

struct star_answer table_breaking(const struct table *t, size_t i) {
    uint8_t answer[STAR_ANSWER_BYTES];
    struct lent as = lent_as(t);
    ASK(t, as, breaking, row_of(i), answer, sizeof answer);
    return star_read_answer(answer);
}

struct star_answer table_digs(const struct table *t, uint8_t *text, size_t len) {
    uint8_t answer[STAR_ANSWER_BYTES];
    const uint8_t *stp = (const uint8_t *)t->text.at;
    struct lent as = lent_as(t);
    if (t->stp) star_digs_text(stp, t->text.len, text, len, answer, sizeof answer);
    else ASK(t, as, digs, text, len, answer, sizeof answer);
    return star_read_answer(answer);
}

struct star_answer table_plan_digs(const struct table *t, uint8_t *text, size_t len) {
    uint8_t answer[STAR_ANSWER_BYTES];
    struct lent as = lent_as(t);
    ASK(t, as, plan_digs, MARKS(t, as), text, len, answer, sizeof answer);
    return star_read_answer(answer);
}

struct star_answer table_groups(const struct table *t, uint8_t groups[STAR_MAX_JUNCTIONS],
                                uint8_t rings[STAR_MAX_ROWS]) {
    uint8_t answer[STAR_ANSWER_BYTES];
    struct lent as = lent_as(t);
    size_t n = t->n < STAR_MAX_JUNCTIONS ? t->n : STAR_MAX_JUNCTIONS; /* more are refused */
    ASK(t, as, groups, MARKS(t, as), groups, n, rings, as.m, answer, sizeof answer);
    return star_read_answer(answer);
}

struct star_answer table_detours(const struct table *t, uint32_t rows[STAR_MAX_ROWS]) {
    uint8_t answer[STAR_ANSWER_BYTES];
    struct lent as = lent_as(t);
    ASK(t, as, detours, MARKS(t, as), rows, as.m, answer, sizeof answer);
    return star_read_answer(answer);
}

uint32_t table_which(const struct table *first, const struct table *second, struct star_answer *a) {
    uint8_t answer[STAR_ANSWER_BYTES];
    struct lent as = lent_as(first);
    uint32_t said;
    said = ASK(first, as, which, MARKS(first, as), MARKS(second, as), answer, sizeof answer);
    *a = star_read_answer(answer);
    return said;
}

int64_t table_plan_total(const struct table *t) {
    uint8_t answer[STAR_ANSWER_BYTES];
    struct lent as = lent_as(t);
    ASK(t, as, total, MARKS(t, as), answer, sizeof answer);
    return star_read_answer(answer).amount;
}

/* An end of a district as the door of working tables takes it: the last row is 1,024, whatever the
   file's last trench is. Ends keep their order. */
static uint32_t end_of(const struct table *t, uint32_t end) {
    uint32_t past;
    if (end < t->m) return end;
    past = end - (uint32_t)t->m;
    return past >= UINT32_MAX - STAR_MAX_ROWS ? UINT32_MAX : STAR_MAX_ROWS + past;
}

struct star_answer table_districts(struct table *t, const uint32_t *ends, size_t count,
                                   uint8_t forests[STAR_MAX_ROWS]) {
    uint8_t answer[STAR_ANSWER_BYTES];
    struct lent as = lent_as(t);
    uint32_t own[STAR_MAX_RUNS + 1];
    size_t i;
    if (count > STAR_MAX_RUNS) count = STAR_MAX_RUNS + 1; /* one too many is refused as more are */
    for (i = 0; i < count; i++) own[i] = as.working ? end_of(t, ends[i]) : ends[i];
    ASK(t, as, districts, own, count, forests, as.m, MARKS(t, as), answer, sizeof answer);
    return star_read_answer(answer);
}

struct star_answer table_mend(struct table *t, struct star_record records[RECORDS]) {
    uint8_t answer[STAR_ANSWER_BYTES];
    struct lent as = lent_as(t);
    ASK(t, as, mend, MARKS(t, as), records, RECORDS, answer, sizeof answer);
    return star_read_answer(answer);
}

struct star_answer table_outlets(struct table *t, uint32_t junction, uint32_t count) {
    uint8_t answer[STAR_ANSWER_BYTES];
    struct lent as = lent_as(t);
    ASK(t, as, outlets, MARKS(t, as), junction, count, answer, sizeof answer);
    return star_read_answer(answer);
}

struct star_answer table_strike(struct table *t, size_t i) {
    uint8_t answer[STAR_ANSWER_BYTES];
    struct lent as = lent_as(t);
    struct star_answer a;
    star_strike(ROWS(as), row_of(i), answer, sizeof answer);
    a = star_read_answer(answer);
    if (a.kind != STAR_PASSED) return a;
    t->struck[i - 1] = 1;
    t->strikes++;
    t->mark[i - 1] = 0;
    return a;
}

struct star_answer table_add(const struct table *t, uint32_t *numbers) {
    static struct table copy;
    uint8_t answer[STAR_ANSWER_BYTES];
    struct lent as = lent_as(t);
    copy = *t;
    star_add(ROWS(as), COLUMNS(&copy, STAR_MAX_ROWS), numbers, STAR_MAX_ROWS, 1, 2, 0, answer,
             sizeof answer);
    return star_read_answer(answer);
}

struct star_answer table_merge(const struct table *t, uint32_t *numbers) {
    static struct table copy;
    uint8_t answer[STAR_ANSWER_BYTES];
    struct lent as = lent_as(t);
    copy = *t;
    star_merge(ROWS(as), COLUMNS(&copy, STAR_MAX_ROWS), numbers, STAR_MAX_ROWS, answer,
               sizeof answer);
    return star_read_answer(answer);
}

/* Where the names stand in the file's bytes, and the length of the longest: at least that of a
   number. */
static size_t name_places(const struct table *t, const char *bytes, uint32_t *from, uint32_t *to) {
    size_t longest = 3, v;
    for (v = 0; v < t->names; v++) {
        from[v] = (uint32_t)(t->name[v].at - bytes);
        to[v] = from[v] + (uint32_t)t->name[v].len;
        if (t->name[v].len > longest) longest = t->name[v].len;
    }
    return longest;
}

int table_write(FILE *to, const struct table *t, char by, struct message *fault) {
    uint32_t from[STAR_MAX_NAMES], end[STAR_MAX_NAMES];
    const char *bytes = t->text.at - t->order_mark;
    size_t room = STAR_FILE_ROOM(name_places(t, bytes, from, end));
    uint8_t answer[STAR_ANSWER_BYTES], *out;
    struct lent as = lent_as(t);
    struct star_written w = {STAR_REFUSED, 0, 0, 0};
    if (room > STAR_MAX_FILE) room = STAR_MAX_FILE; /* the door refuses a longer text */
    out = malloc(room);
    if (out) {
        star_write_table(t->n, ROWS(as), COLUMNS(t, t->m), t->mark, t->m, (const uint8_t *)bytes,
                         t->text.len + t->order_mark, from, t->names, end, t->names, (uint8_t)by,
                         out, room, answer, sizeof answer);
        w = star_read_written(answer);
    }
    if (w.kind == STAR_PASSED) {
        if (by == ';') fputs("\xef\xbb\xbf", to);
        fwrite(out, 1, w.length, to);
    } else
        say(fault, "star: %s", out ? star_refusal_text(w.number) : "there is no room to write it");
    free(out);
    return w.kind == STAR_PASSED;
}
