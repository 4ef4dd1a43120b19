/* Compares star_mend and star_work_mend with a plain mender, record by record and mark by mark, and
 * holds them to what is promised: star_cst passes the mended marks, the records applied to the old
 * marks give them, there are at most 2 m, those past the last one keep their content; the refusals
 * come in their order, and nothing else is written.
 * usage: mend_test [CLAIMS [exact]]   prints one line 'N passed, M failed' at its end; exact:
 * columns in memory of their own length */
#include <stdio.h>
#include <string.h>

#include "lent.h"
#include "plain_mend.h"

/* What the claims came to: the steps by their kind, and claims without any. */
static unsigned long steps[4], none;

static uint32_t door(struct lent *t) {
    struct handed p = lent_hand(t);
    return lent_back(
        t, p, ASK(t, p, mend, HANDED(t, p, MARK), HANDED(t, p, RECORDS), HANDED(t, p, ANSWER)));
}

/* The refusal, or a pass: 6 and 16 stand between those of the table and 11. */
static struct star_answer expected(const struct lent *t) {
    struct star_answer a = lent_least(t, MARK);
    size_t i;
    if (a.kind == STAR_REFUSED && a.number != STAR_NO_NETWORK) return a;
    for (i = 1; i <= lent_m(t); i++)
        if (lent_used(t, i) && t->mark[i - 1] > 1) return refusal(STAR_BAD_MARK, (unsigned)i);
    return t->len[RECORDS] < 2 * lent_m(t) ? refusal(STAR_SHORT_RECORDS, 0) : a;
}

/* Applies a record to marks; 0 where it cannot be. */
static int apply(uint8_t *mark, size_t m, struct star_record r) {
    if (r.kind < STAR_DROPPED || r.kind > STAR_EXCHANGED || r.out > m || r.in > m) return 0;
    if ((r.kind == STAR_ADDED) != (r.out == 0) || (r.kind == STAR_DROPPED) != (r.in == 0)) return 0;
    if ((r.out && mark[r.out - 1] != 1) || (r.in && mark[r.in - 1] != 0)) return 0;
    if (r.out) mark[r.out - 1] = 0;
    if (r.in) mark[r.in - 1] = 1;
    return 1;
}

/* All of them, drops before additions before exchanges. */
static int apply_all(uint8_t *mark, size_t m, const struct star_record *records, size_t count) {
    size_t i;
    for (i = 0; i < count; i++) {
        if (!apply(mark, m, records[i])) return 0;
        if (i > 0 && records[i].kind < records[i - 1].kind) return 0;
    }
    return 1;
}

static void held(struct lent *t) {
    static struct lent before, plain;
    static struct rows r;
    struct star_answer a = expected(t), judged;
    size_t count, i;
    uint32_t said;
    lent_copy(&before, t);
    lent_copy(&plain, t);
    said = door(t);
    if (lent_refused(t, &before, said, a)) return;
    lent_ended(t, said);
    lent_rows(t, &r);
    count = plain_mend(&r, plain.mark, plain.records);
    tell(said == 1 && lent_does(t, (int64_t)count), "the number of records");
    memcpy(plain.answer, t->answer, STAR_ANSWER_BYTES);
    tell(lent_same(t, &plain), "the marks, the records and all else");
    judged = lent_judged(t);
    tell(judged.kind == STAR_PASSED && judged.amount == a.amount, "the check of the mended marks");
    count = (size_t)star_read_answer(t->answer).amount;
    tell(count <= 2 * lent_m(t) && apply_all(before.mark, lent_m(t), t->records, count) &&
             !memcmp(before.mark, t->mark, sizeof before.mark),
         "the records applied to the old marks");
    none += count == 0;
    for (i = 0; i < count && count <= 2 * STAR_MAX_ROWS; i++) steps[t->records[i].kind % 4]++;
}

/* The yard with a claim, and its records, three digits each. */
static void known(const char *in_use, const char *marked, const char *records, const char *mended) {
    static struct lent t;
    size_t i, count = strlen(records) / 3;
    int ok;
    lent_yard(&t, in_use);
    for (; *marked; marked++) t.mark[*marked - '1'] = 1;
    held(&t);
    ok = lent_does(&t, (int64_t)count) && t.records[count].kind == 0x07070707;
    for (i = 0; i < count; i++) {
        struct star_record r = t.records[i];
        ok = ok && r.kind == (uint32_t)(records[3 * i] - '0') &&
             r.out == (uint32_t)(records[3 * i + 1] - '0') &&
             r.in == (uint32_t)(records[3 * i + 2] - '0');
    }
    for (i = 0; i < 5; i++) ok = ok && t.mark[i] == (strchr(mended, (int)('1' + i)) != NULL);
    tell(ok, "the yard's known records");
}

/* The refusal of the yard, or of its rows in use, with so many records. */
static void with_records(struct lent *t, size_t count, unsigned number, unsigned place) {
    t->len[RECORDS] = count;
    held(t);
    if (number) tell(lent_refuses(t, number, place), "a refusal of records");
    else tell(t->answer[0] == STAR_PASSED, "records enough");
}

/* One record too few goes before 11, and after a bad mark; a list may be longer than it has to
   be. */
static void record_counts(void) {
    static struct lent t;
    lent_yard(&t, NULL);
    with_records(&t, 11, 0, 0);
    t.n = 5;
    with_records(&t, 9, STAR_SHORT_RECORDS, 0);
    with_records(&t, 10, STAR_NO_NETWORK, 0);
    t.mark[4] = 2;
    with_records(&t, 0, STAR_BAD_MARK, 5);
    lent_yard(&t, "1234");
    with_records(&t, 2 * STAR_MAX_ROWS + 1, 0, 0);
    with_records(&t, 2 * STAR_MAX_ROWS - 1, STAR_SHORT_RECORDS, 0);
    with_records(&t, 0, STAR_SHORT_RECORDS, 0);
    lent_yard(&t, NULL);
    with_records(&t, 0, STAR_SHORT_RECORDS, 0);
}

static void cases(void) {
    static struct lent t;
    lends = LENDS(MARK) | LENDS(RECORDS);
    known(NULL, "125", "150203314", "234");
    known(NULL, "12345", "140150314", "234");
    known(NULL, "", "201202203314", "234");
    known(NULL, "135", "352314", "234");
    known(NULL, "235", "351314", "234");
    known(NULL, "124", "", "124");
    known("135", "1", "203205", "135");
    lent_yard(&t, "135"); /* a mark of 9 at a row not in use is neither read nor written */
    t.mark[1] = t.mark[3] = 9;
    held(&t);
    tell(lent_does(&t, 3) && t.mark[1] == 9 && t.mark[3] == 9, "marks at rows not in use");
    record_counts();
    lent_no_rows(&t);
    held(&t);
    tell(lent_does(&t, 0), "one junction");
    lent_small_stacks(door, NULL, STACK_MEND);
    lent_each_length(held);
}

static void table(unsigned long k) {
    static struct lent t;
    uint32_t flips = any(7);
    lent_make(&t, k);
    if (any(6)) lent_mark(&t, t.mark);
    while (flips-- > 0) t.mark[lent_row(&t) - 1] ^= 1;
    if (any(40) == 0) t.len[RECORDS] += any(8);
    if (any(40) == 0) t.len[RECORDS] = any((uint32_t)t.len[RECORDS] + 1);
    if (any(6) == 0) lent_damage(&t);
    held(&t);
}

int main(int count, char **words) {
    static const unsigned numbers[] = {3, 4, 6, 11, 15, 16, 0};
    unsigned long claims = run(count, words, 50000, cases, table), k;
    share(lent_done[0] + lent_done[1], 2, claims, "the share of claims that are not refused");
    share(none, 100, claims, "the share of claims without a step");
    for (k = 1; k <= 3; k++) share(steps[k], 4, claims, "the share of a kind of steps");
    share(refused[STAR_SHORT_RECORDS], 100, claims, "the share of lists that are too short");
    printf("%lu drops, %lu additions, %lu exchanges; %lu claims without a step\n", steps[1],
           steps[2], steps[3], none);
    return lent_told("claims mended", claims, 200, numbers);
}
