/* A street of the yard is blocked, a new one is entered, and the table is packed: a working table
 * through the library. It is C99 and C++17.
 *
 *     cc blocked.c $(pkg-config --cflags --libs star) && ./a.out
 */
#include <inttypes.h>
#include <stdio.h>

#include "star.h"

enum { JUNCTIONS = 4, ROWS = STAR_MAX_ROWS };

static uint8_t left[ROWS] = {1, 2, 3, 1, 1}, right[ROWS] = {2, 3, 4, 4, 3}, weight[4 * ROWS],
               mark[ROWS], answer[STAR_ANSWER_BYTES];
static uint64_t in_use[STAR_COLUMN_WORDS];
static uint32_t numbers[ROWS];

static struct star_answer told(const char *what) {
    struct star_answer a = star_read_answer(answer);
    if (a.kind == STAR_REFUSED)
        printf("%s: refused %u, %s\n", what, a.number, star_refusal_text(a.number));
    else printf("%s: %" PRId64 "\n", what, a.amount);
    return a;
}

static void build(const char *what) {
    int i;
    star_work_mst1(JUNCTIONS, in_use, STAR_COLUMN_WORDS, left, ROWS, right, ROWS, weight,
                   sizeof weight, mark, ROWS, answer, sizeof answer);
    if (told(what).kind == STAR_REFUSED) return;
    for (i = 0; i < ROWS; i++)
        if (mark[i] == 1)
            printf("  row %d: %u-%u, price %" PRId32 "\n", i + 1, left[i], right[i],
                   star_get_price(weight, (size_t)i));
}

int main(void) {
    static const int32_t price[] = {5, 3, 5, 4, 6};
    size_t i;
    for (i = 0; i < 5; i++) {
        star_put_price(weight, i, price[i]);
        star_set_in_use(in_use, i + 1, 1);
    }
    build("built");

    star_strike(in_use, STAR_COLUMN_WORDS, 4, answer, sizeof answer);
    told("row 4 struck");
    star_strike(in_use, STAR_COLUMN_WORDS, 4, answer, sizeof answer);
    told("row 4 struck again");
    build("built without it");

    star_add(in_use, STAR_COLUMN_WORDS, left, ROWS, right, ROWS, weight, sizeof weight, numbers,
             ROWS, 2, 4, -1, answer, sizeof answer);
    told("a row is added");
    build("built with it");

    star_merge(in_use, STAR_COLUMN_WORDS, left, ROWS, right, ROWS, weight, sizeof weight, numbers,
               ROWS, answer, sizeof answer);
    for (i = 0; i < ROWS; i++)
        if (numbers[i] > 0 && numbers[i] != i + 1)
            printf("  row %u is now row %u\n", (unsigned)i + 1, (unsigned)numbers[i]);
    star_carry_marks(mark, numbers);
    star_work_cst(JUNCTIONS, in_use, STAR_COLUMN_WORDS, left, ROWS, right, ROWS, weight,
                  sizeof weight, mark, ROWS, answer, sizeof answer);
    told("checked after the merge");
    return 0;
}
