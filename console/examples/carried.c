/* A plan is kept while its table changes: marks are carried after each add and each merge, by the
 * numbers of that call. It is C99 and C++98.
 *
 *     cc carried.c $(pkg-config --cflags --libs star) && ./a.out
 */
#include <stdio.h>

#include "star.h"

enum { JUNCTIONS = 4, ROWS = STAR_MAX_ROWS, WORDS = STAR_COLUMN_WORDS };

static uint8_t left[ROWS], right[ROWS], weight[4 * ROWS], mark[ROWS], answer[STAR_ANSWER_BYTES];
static uint64_t in_use[WORDS];
static uint32_t numbers[ROWS];

static void enter(size_t row, uint8_t a, uint8_t b, int32_t price) {
    left[row - 1] = a;
    right[row - 1] = b;
    star_put_price(weight, row - 1, price);
    star_set_in_use(in_use, row, 1);
}

static void build(void) {
    star_work_mst1(JUNCTIONS, in_use, WORDS, left, ROWS, right, ROWS, weight, sizeof weight, mark,
                   ROWS, answer, sizeof answer);
    printf("built: %ld\n", (long)star_read_answer(answer).amount);
}

static void check(const char *when) {
    struct star_answer a;
    star_work_cst(JUNCTIONS, in_use, WORDS, left, ROWS, right, ROWS, weight, sizeof weight, mark,
                  ROWS, answer, sizeof answer);
    a = star_read_answer(answer);
    if (a.kind == STAR_PASSED) printf("%s: passed, %ld\n", when, (long)a.amount);
    else printf("%s: kind %u, number %u\n", when, a.kind, a.number);
}

static void carry(void) {
    if (answer[0] == STAR_PASSED) star_carry_marks(mark, numbers);
}

/* Adds a row, and gives its position. The marks are not carried yet. */
static unsigned add(uint8_t a, uint8_t b, int32_t price) {
    star_add(in_use, WORDS, left, ROWS, right, ROWS, weight, sizeof weight, numbers, ROWS, a, b,
             price, answer, sizeof answer);
    return (unsigned)star_read_answer(answer).amount;
}

static void merge(void) {
    star_merge(in_use, WORDS, left, ROWS, right, ROWS, weight, sizeof weight, numbers, ROWS, answer,
               sizeof answer);
}

static void strike(uint32_t row) {
    star_strike(in_use, WORDS, row, answer, sizeof answer);
    printf("row %u is struck\n", (unsigned)row);
}

int main(void) {
    /* The yard, its fifth row at 1,024: the next add packs. */
    enter(1, 1, 2, 5);
    enter(2, 2, 3, 3);
    enter(3, 3, 4, 5);
    enter(4, 1, 4, 4);
    enter(1024, 1, 3, 6);
    build();
    strike(3);
    check("the plan without row 3");

    printf("row %u is added\n", add(3, 4, 7));
    carry();
    check("the plan after an add that packed");
    strike(4);
    merge();
    carry();
    check("the plan after the merge");

    /* The last row in use is marked and struck: a row added now takes its place, and its mark byte
       too until the marks are carried. */
    printf("row %u is added\n", add(1, 3, 1));
    carry();
    build();
    strike(5);
    printf("row %u is added\n", add(2, 4, 8));
    printf("its mark before marks are carried: %u\n", (unsigned)mark[4]);
    carry();
    printf("its mark after that: %u\n", (unsigned)mark[4]);
    return 0;
}
