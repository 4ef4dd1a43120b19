#include "doors.h"

static const char *const NAMES[DOORS] = {"cst",     "other", "paths", "mst1",  "strike",
                                         "restore", "add",   "merge", "carry", "total"};

#define WORKING_TABLE LENDS(IN_USE) | LENDS(LEFT) | LENDS(RIGHT) | LENDS(WEIGHT)
const unsigned DOOR_LENDS[DOORS] = {
    WORKING_TABLE | LENDS(MARK) | LENDS(ANSWER),
    WORKING_TABLE | LENDS(MARK) | LENDS(ANSWER),
    WORKING_TABLE | LENDS(MARK) | LENDS(MATRIX) | LENDS(ANSWER),
    WORKING_TABLE | LENDS(MARK) | LENDS(ANSWER),
    LENDS(IN_USE) | LENDS(ANSWER),
    LENDS(IN_USE) | LENDS(ANSWER),
    WORKING_TABLE | LENDS(NUMBERS) | LENDS(ANSWER),
    WORKING_TABLE | LENDS(NUMBERS) | LENDS(ANSWER),
    LENDS(MARK) | LENDS(NUMBERS) | LENDS(ANSWER),
    WORKING_TABLE | LENDS(MARK) | LENDS(ANSWER),
};

#define TO_MARK HANDED(t, p, MARK)
#define TO_NUMBERS HANDED(t, p, NUMBERS)
#define TO_ANSWER HANDED(t, p, ANSWER)
#define TO_ROWS HANDED(t, p, IN_USE)

static uint32_t handed(struct lent *t, struct handed p) {
    switch (t->door) {
    case CST: return ASK(t, p, cst, TO_MARK, TO_ANSWER);
    case OTHER: return ASK(t, p, other, TO_MARK, TO_ANSWER);
    case MST1: return ASK(t, p, mst1, TO_MARK, TO_ANSWER);
    case PATHS: return ASK(t, p, paths, TO_MARK, t->at, HANDED(t, p, MATRIX), TO_ANSWER);
    case TOTAL: return ASK(t, p, total, TO_MARK, TO_ANSWER);
    case STRIKE: return star_strike(TO_ROWS, t->at, TO_ANSWER);
    case RESTORE: return star_restore(TO_ROWS, t->at, TO_ANSWER);
    case ADD: return star_add(TO_ROWS, TABLE(t, p), TO_NUMBERS, t->a, t->b, t->price, TO_ANSWER);
    case MERGE: return star_merge(TO_ROWS, TABLE(t, p), TO_NUMBERS, TO_ANSWER);
    default: return star_carry(TO_NUMBERS, TO_MARK, TO_ANSWER);
    }
}

static uint32_t call(struct lent *t) {
    struct handed p = lent_hand(t);
    return lent_back(t, p, handed(t, p));
}

/* The doors of working tables alone, and those that change them. */
static uint32_t plain_working(struct lent *t, struct call *c, struct in_use u) {
    struct numbers to = {t->numbers, t->len[NUMBERS]};
    size_t len = t->len[ANSWER];
    switch (t->door) {
    case CST: return plain_work_cst(u, c, t->answer, len);
    case OTHER: return plain_work_other(u, c, t->answer, len);
    case MST1: return plain_work_mst1(u, c, t->answer, len);
    case PATHS: return plain_work_paths(u, c, t->at, t->matrix, t->len[MATRIX], t->answer, len);
    case TOTAL: return plain_work_total(u, c, t->answer, len);
    case STRIKE: return plain_strike(u, t->at, t->answer, len);
    case RESTORE: return plain_restore(u, t->at, t->answer, len);
    case ADD: return plain_add(u, c, to, t->a, t->b, t->price, t->answer, len);
    case MERGE: return plain_merge(u, c, to, t->answer, len);
    default: return plain_carry(to, t->mark, t->len[MARK], t->answer, len);
    }
}

static uint32_t plain(struct lent *t) {
    struct call c = lent_call(t);
    size_t len = t->len[ANSWER];
    if (t->working) return plain_working(t, &c, *lent_in_use(t));
    switch (t->door) {
    case CST: return plain_cst(&c, t->answer, len);
    case OTHER: return plain_other(&c, t->answer, len);
    case MST1: return plain_mst1(&c, t->answer, len);
    case TOTAL: return plain_total(&c, t->answer, len);
    default: return plain_paths(&c, t->at, t->matrix, t->len[MATRIX], t->answer, len);
    }
}

uint32_t doors_call(struct lent *t, enum door door) {
    t->door = (int)door;
    lends = DOOR_LENDS[door];
    return call(t);
}

struct star_answer doors_answer(struct lent *t, enum door door) {
    doors_call(t, door);
    return star_read_answer(t->answer);
}

uint32_t doors_agree(struct lent *t, enum door door) {
    t->door = (int)door;
    lends = DOOR_LENDS[door];
    if (door == PATHS) random_bytes(t->matrix, sizeof t->matrix);
    random_bytes(t->answer, sizeof t->answer);
    return lent_agree(t, NAMES[door], call, plain);
}
