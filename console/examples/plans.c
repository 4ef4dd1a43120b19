/* The yard's plan made in three ways: an old drawing is mended, its rows are planned in two
 * districts, and junction 1 gets exactly three rows. It is C99 and C++17.
 *
 *     cc plans.c $(pkg-config --cflags --libs star) && ./a.out
 */
#include <inttypes.h>
#include <stdio.h>

#include "star.h"

enum { JUNCTIONS = 4, ROWS = 5 };

static const uint8_t left[ROWS] = {1, 2, 3, 1, 1}, right[ROWS] = {2, 3, 4, 4, 3};
static uint8_t weight[4 * ROWS], answer[STAR_ANSWER_BYTES];

static int told(const char *what) {
    struct star_answer a = star_read_answer(answer);
    if (a.kind == STAR_REFUSED)
        printf("%s: refused %u, %s\n", what, a.number, star_refusal_text(a.number));
    else printf("%s: %" PRId64 "\n", what, a.amount);
    return a.kind == STAR_PASSED;
}

static void show(const uint8_t *mark) {
    int i;
    for (i = 0; i < ROWS; i++)
        if (mark[i] == 1)
            printf("  row %d: %u-%u, price %" PRId32 "\n", i + 1, left[i], right[i],
                   star_get_price(weight, (size_t)i));
}

/* The marks are a ring, and junction 4 is left out. */
static void mend(void) {
    static const char *const names[] = {"", "dropped", "added", "exchanged"};
    uint8_t mark[ROWS] = {1, 1, 0, 0, 1};
    struct star_record records[2 * ROWS];
    size_t i, steps;
    star_mend(JUNCTIONS, left, ROWS, right, ROWS, weight, sizeof weight, mark, ROWS, records,
              2 * ROWS, answer, sizeof answer);
    if (!told("mended, in steps")) return;
    steps = (size_t)star_read_answer(answer).amount;
    for (i = 0; i < steps; i++)
        printf("  %s: out %u, in %u\n", names[records[i].kind], (unsigned)records[i].out,
               (unsigned)records[i].in);
    show(mark);
}

static void districts(void) {
    const uint32_t ends[] = {2, ROWS};
    uint8_t forests[ROWS], mark[ROWS];
    star_districts(JUNCTIONS, left, ROWS, right, ROWS, weight, sizeof weight, ends, 2, forests,
                   ROWS, mark, ROWS, answer, sizeof answer);
    if (!told("rows 1 and 2, then 3 to 5")) return;
    show(forests);
    printf("the city\n");
    show(mark);
}

static void outlets(uint32_t count) {
    uint8_t mark[ROWS];
    star_outlets(JUNCTIONS, left, ROWS, right, ROWS, weight, sizeof weight, mark, ROWS, 1, count,
                 answer, sizeof answer);
    printf("%u at junction 1\n", (unsigned)count);
    if (told("the least with this number")) show(mark);
}

int main(void) {
    static const int32_t price[ROWS] = {5, 3, 5, 4, 6};
    size_t i;
    for (i = 0; i < ROWS; i++) star_put_price(weight, i, price[i]);
    mend();
    districts();
    outlets(3);
    outlets(4);
    return 0;
}
