/* One price moves: what the cheapest network of the yard costs then, up to which price each row
 * stays in it, and which of two plans costs less.
 *
 * After make install: cc prices.c $(pkg-config --cflags --libs star) && ./a.out. It is C99, and
 * C++17 as well. */
#include <stdio.h>

#include "star.h"

enum { ROWS = 5 };

static const uint8_t left[ROWS] = {1, 2, 3, 1, 1};
static const uint8_t right[ROWS] = {2, 3, 4, 4, 3};
static const uint8_t price[ROWS] = {5, 3, 5, 4, 6};

static void say(const char *what, uint32_t n, const uint8_t *weight, uint32_t row,
                int32_t new_price) {
    uint8_t answer[STAR_QUOTE_BYTES];
    struct star_quoted q;
    star_quote(n, left, ROWS, right, ROWS, weight, 4 * ROWS, row, new_price, answer, sizeof answer);
    q = star_read_quoted(answer);
    if (q.kind == STAR_REFUSED)
        printf("%s: refused %u, %s\n", what, q.number, star_refusal_text(q.number));
    else printf("%s: %lld today, %lld then\n", what, (long long)q.before, (long long)q.after);
}

int main(void) {
    const uint8_t dear[ROWS] = {1, 1, 1, 0, 0}, cheap[ROWS] = {1, 1, 0, 1, 0};
    uint8_t weight[4 * ROWS], answer[STAR_ANSWER_BYTES];
    struct star_answer a;
    uint32_t i, which;
    for (i = 0; i < ROWS; i++) star_put_price(weight, i, price[i]);
    say("row 4 at 9", 4, weight, 4, 9);
    say("row 4 at -3", 4, weight, 4, -3);
    say("row 5 at 100", 4, weight, 5, 100);
    say("row 6 at 1", 4, weight, 6, 1);
    say("with a fifth junction", 5, weight, 4, 9);
    for (i = 1; i <= ROWS; i++) {
        star_breaking(4, left, ROWS, right, ROWS, weight, sizeof weight, i, answer, sizeof answer);
        a = star_read_answer(answer);
        if (a.kind == STAR_NEVER) printf("row %u is in every network\n", (unsigned)i);
        else printf("row %u stays up to %lld\n", (unsigned)i, (long long)a.amount);
    }
    which = star_which(4, left, ROWS, right, ROWS, weight, sizeof weight, dear, ROWS, cheap, ROWS,
                       answer, sizeof answer);
    printf("plan %u stands: %lld\n", (unsigned)which, (long long)star_read_answer(answer).amount);
    return 0;
}
