/* What files of faults have in common. Each is the control of a test: over doors with one of its
   faults the test has to fail, and over the fault 'none' to pass. */
#ifndef TESTS_FAULTY_H
#define TESTS_FAULTY_H

#include "fault.h"
#include "lent.h"

static inline int is_refused(const struct lent *t, unsigned number) {
    return t->answer[0] == STAR_REFUSED && t->answer[1] == number;
}

static inline int is_passed(const struct lent *t) { return t->answer[0] == STAR_PASSED; }

static inline void put_amount(struct lent *t, int64_t amount) {
    int i;
    for (i = 0; i < 8; i++) t->answer[8 + i] = (uint8_t)((uint64_t)amount >> (8 * i));
}

static inline void put_refusal(struct lent *t, unsigned number, size_t place) {
    memset(t->answer, 0, STAR_ANSWER_BYTES);
    t->answer[1] = (uint8_t)number;
    t->answer[2] = (uint8_t)place;
    t->answer[3] = (uint8_t)(place >> 8);
}

/* Writes into an answer of another length, which may not be written. */
static inline void write_unasked(struct lent *t) {
    if (t->len[ANSWER] > 0 && t->len[ANSWER] != answer_len) t->answer[0] ^= 1;
}

/* The rows in use, which a fault of a door that does not write them has changed. */
static inline void restore_rows(struct lent *t, const struct lent *before) {
    memcpy(t->in_use, before->in_use, sizeof t->in_use);
}

/* A least network of the table, by the plain implementation. */
static inline struct star_answer least_network(struct lent *t, uint8_t *mark) {
    uint8_t answer[STAR_ANSWER_BYTES];
    struct call c = lent_call(t);
    c.mark = mark;
    if (t->working) plain_work_mst1(*lent_in_use(t), &c, answer, sizeof answer);
    else plain_mst1(&c, answer, sizeof answer);
    return star_read_answer(answer);
}

#endif
