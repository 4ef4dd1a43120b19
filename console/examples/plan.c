/* Builds the cheapest network of the yard, checks it, then a dearer one, and one that a grant has
 * made dearer, through the library. It is C99 and C++17.
 *
 *     cc plan.c $(pkg-config --cflags --libs star) && ./a.out
 */
#include <inttypes.h>
#include <stdio.h>
#include <string.h>

#include "star.h"

enum { JUNCTIONS = 4, ROWS = 5 };

static const uint8_t left[ROWS] = {1, 2, 3, 1, 1};
static const uint8_t right[ROWS] = {2, 3, 4, 4, 3};
static const int32_t price[ROWS] = {5, 3, 5, 4, 6};

static void print(const char *what, struct star_answer a) {
    if (a.kind == STAR_PASSED) printf("%s: total %" PRId64 "\n", what, a.amount);
    else if (a.kind == STAR_LIGHTER)
        printf("%s: take out row %u, put in row %u, and save %" PRId64 "\n", what, a.out, a.in,
               a.amount);
    else printf("%s: refused %u, %s\n", what, a.number, star_refusal_text(a.number));
}

int main(void) {
    const uint8_t dear[ROWS] = {1, 1, 1, 0, 0};
    uint8_t weight[4 * ROWS], mark[ROWS], answer[STAR_ANSWER_BYTES];
    int i;
    if (strcmp(star_version(), STAR_VERSION) != 0) {
        printf("the header is of version %s, the library of %s\n", STAR_VERSION, star_version());
        return 1;
    }
    for (i = 0; i < ROWS; i++) star_put_price(weight, (size_t)i, price[i]);

    star_mst1(JUNCTIONS, left, ROWS, right, ROWS, weight, sizeof weight, mark, ROWS, answer,
              sizeof answer);
    print("built", star_read_answer(answer));
    for (i = 0; i < ROWS; i++)
        if (mark[i] == 1)
            printf("  row %d: %u-%u, price %" PRId32 "\n", i + 1, left[i], right[i], price[i]);

    star_cst(JUNCTIONS, left, ROWS, right, ROWS, weight, sizeof weight, mark, ROWS, answer,
             sizeof answer);
    print("checked", star_read_answer(answer));

    star_cst(JUNCTIONS, left, ROWS, right, ROWS, weight, sizeof weight, dear, ROWS, answer,
             sizeof answer);
    print("the dearer plan", star_read_answer(answer));

    star_cst(JUNCTIONS + 1, left, ROWS, right, ROWS, weight, sizeof weight, mark, ROWS, answer,
             sizeof answer);
    print("with a fifth junction", star_read_answer(answer));

    star_put_price(weight, 4, -20); /* row 5: a grant exceeds its cost by 20 */
    star_cst(JUNCTIONS, left, ROWS, right, ROWS, weight, sizeof weight, mark, ROWS, answer,
             sizeof answer);
    print("with a grant for row 5", star_read_answer(answer));
    star_mst1(JUNCTIONS, left, ROWS, right, ROWS, weight, sizeof weight, mark, ROWS, answer,
              sizeof answer);
    print("built with it", star_read_answer(answer));
    return 0;
}
