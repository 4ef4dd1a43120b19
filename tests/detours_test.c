/* Holds star_detours and star_work_detours to what is promised of them: the number beside each row
 * as plain searches find it, the total, star_cst's refusals in its order with 3 for the numbers
 * too, and nothing else written. On small tables every exchange of a marked row is made, and the
 * best of them compared.
 * usage: detours_test [TABLES [exact]]   prints one line 'N passed, M failed' at its end; exact:
 * columns in memory of their own length */
#include <stdio.h>
#include <string.h>

#include "lent.h"
#include "plain_detours.h"

/* What the tables came to: plans that a row beside makes cheaper, marked rows without another, and
   tables whose exchanges are all made. */
static unsigned long cheaper, bridges, made;

static uint32_t door(struct lent *t) {
    struct handed p = lent_hand(t);
    return lent_back(
        t, p, ASK(t, p, detours, HANDED(t, p, MARK), HANDED(t, p, NUMBERS), HANDED(t, p, ANSWER)));
}

/* What is expected: star_cst's refusal, or a pass with the plan's total; 3 where the numbers are
   not as many as the rows, after 1 and 2. */
static struct star_answer expected(const struct lent *t) {
    struct star_answer a = lent_judged(t);
    int early = a.kind == STAR_REFUSED && a.number <= STAR_TOO_MANY_ROWS;
    if (!early && t->len[NUMBERS] != lent_m(t)) return refusal(STAR_BAD_LENGTHS, 0);
    if (a.kind == STAR_REFUSED) return a;
    memset(&a, 0, sizeof a);
    a.kind = STAR_PASSED;
    a.amount = lent_sum(t, t->mark);
    return a;
}

/* The total with row in for row out, or no network. */
static int total_with(struct lent *t, uint32_t out, uint32_t in, int64_t *total) {
    struct star_answer a;
    t->mark[out - 1] = 0;
    t->mark[in - 1] = 1;
    a = lent_judged(t);
    *total = lent_sum(t, t->mark);
    t->mark[out - 1] = 1;
    t->mark[in - 1] = 0;
    return a.kind != STAR_REFUSED;
}

/* Every exchange of a small table is made: the row beside is the best, and the uppermost. */
static void exchanges(struct lent *t, const struct rows *r) {
    size_t k, other;
    for (k = 0; k < r->m; k++) {
        uint32_t row = (uint32_t)r->row[k], best = 0;
        int64_t least = 0, total;
        for (other = 0; other < r->m; other++) {
            uint32_t with = (uint32_t)r->row[other];
            if (t->mark[with - 1] == t->mark[row - 1]) continue;
            if (!(t->mark[row - 1] ? total_with(t, row, with, &total)
                                   : total_with(t, with, row, &total)))
                continue;
            if (best && total >= least) continue;
            best = with;
            least = total;
        }
        tell(t->numbers[row - 1] == best, "the best exchange of a row");
    }
    made++;
}

static void compare(struct lent *t, const struct rows *r) {
    static uint32_t beside[STAR_MAX_ROWS];
    int saves = 0, same;
    size_t k;
    plain_detours(r, t->mark, beside, lent_m(t));
    same = memcmp(t->numbers, beside, lent_m(t) * sizeof *beside) == 0;
    tell(same, "the number of each row");
    if (!same) return;
    for (k = 0; k < r->m; k++) {
        uint32_t row = (uint32_t)r->row[k], with = t->numbers[row - 1];
        bridges += with == 0;
        if (!t->mark[row - 1] && with)
            saves |= star_get_price(t->weight, row - 1) < star_get_price(t->weight, with - 1);
    }
    cheaper += saves;
    tell(saves == (lent_judged(t).kind == STAR_LIGHTER), "that a cheaper row beside is a saving");
    if (r->m <= 10) exchanges(t, r);
}

static void held(struct lent *t) {
    static struct lent before;
    static struct rows r;
    struct star_answer a = expected(t);
    uint32_t said;
    lent_copy(&before, t);
    said = door(t);
    if (lent_refused(t, &before, said, a)) return;
    lent_ended(t, said);
    tell(said == 1 && lent_does(t, a.amount), "the total of the plan");
    lent_rows(t, &r);
    compare(t, &r);
    memcpy(before.answer, t->answer, STAR_ANSWER_BYTES);
    memcpy(before.numbers, t->numbers, t->len[NUMBERS] * sizeof *t->numbers);
    tell(lent_same(t, &before), "what is not written");
}

/* As many numbers as rows. */
static void lend_numbers(struct lent *t) { t->len[NUMBERS] = lent_m(t); }

/* The yard, or its rows in use, with marks as digits: the total and the numbers. */
static void known(const char *in_use, const char *marked, int64_t total, const char *numbers) {
    static struct lent t;
    size_t i;
    int ok = 1;
    lent_yard(&t, in_use);
    lend_numbers(&t);
    for (i = 0; i < 5; i++) t.mark[i] = strchr(marked, (int)('1' + i)) != NULL;
    held(&t);
    for (i = 0; i < 5; i++) ok = ok && t.numbers[i] == (uint32_t)(numbers[i] - '0');
    tell(ok && lent_does(&t, total), "the yard's known numbers");
}

static void known_refusal(const char *marked, size_t numbers, unsigned number, unsigned place) {
    static struct lent t;
    size_t i;
    lent_yard(&t, NULL);
    t.len[NUMBERS] = numbers;
    for (i = 0; i < 5; i++) t.mark[i] = strchr(marked, (int)('1' + i)) != NULL;
    held(&t);
    tell(lent_refuses(&t, number, place), "a known refusal");
}

/* A plan on a table that is not damaged, or one mark more or less, or a mark moved. */
static void plan(struct lent *t) {
    uint8_t *a = &t->mark[lent_row(t) - 1], *b = &t->mark[lent_row(t) - 1], kept;
    lent_mark(t, t->mark);
    if (any(12) == 0) *a ^= 1;
    else if (any(4) == 0) {
        kept = *a;
        *a = *b;
        *b = kept;
    }
    lend_numbers(t);
}

static void ready(struct lent *t) {
    lent_mark(t, t->mark);
    lend_numbers(t);
    held(t);
}

/* A length of the yard, of whose numbers there are 1,024 where none was asked for. */
static void each(struct lent *t) {
    if (t->len[NUMBERS] == STAR_MAX_ROWS) lend_numbers(t);
    held(t);
}

static void cases(void) {
    static struct lent t;
    lends = LENDS(MARK) | LENDS(NUMBERS);
    known(NULL, "123", 13, "44411"); /* row 5: its detour costs 8, above 6, its dearest row 5 */
    known(NULL, "245", 13, "51531");
    known(NULL, "124", 12, "33131");
    known("135", "135", 16, "00000");
    known("1245", "245", 13, "51001");
    known_refusal("125", 5, STAR_NOT_JOINED, 4);
    known_refusal("12", 5, STAR_BAD_MARK_COUNT, 0);
    known_refusal("123", 4, STAR_BAD_LENGTHS, 0);
    known_refusal("123", 6, STAR_BAD_LENGTHS, 0);
    known_refusal("12", 0, STAR_BAD_LENGTHS, 0);
    lent_yard(&t, NULL); /* one junction, no row */
    lent_no_rows(&t);
    lend_numbers(&t);
    held(&t);
    tell(lent_does(&t, 0), "one junction");
    lent_small_stacks(door, ready, STACK);
    lent_each_length(each);
}

static void table(unsigned long k) {
    static struct lent t;
    lent_make(&t, k);
    plan(&t);
    if (any(7) == 0) lent_damage(&t);
    held(&t);
}

int main(int count, char **words) {
    static const unsigned numbers[] = {3, 4, 6, 9, 10, 15, 0};
    unsigned long tables = run(count, words, 20000, cases, table);
    share(lent_done[0] + lent_done[1], 2, tables, "the share of tables that are not refused");
    share(cheaper, 10, tables, "the share of plans that an exchange makes cheaper");
    share(bridges, 4, tables, "the share of rows that nothing replaces");
    share(made, 10, tables, "the share of tables whose exchanges are made");
    printf("%lu with a saving, %lu rows that nothing replaces, %lu with every exchange made\n",
           cheaper, bridges, made);
    return lent_told("detours", tables, 200, numbers);
}
