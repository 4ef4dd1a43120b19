/* Compares star_groups and star_work_groups with a plain implementation, on claims of any marks;
 * each network that star_cst takes is one group without a ring, and no other claim is.
 * usage: groups_test [TABLES [exact]]   prints one line 'N passed, M failed' at its end; exact:
 * columns in memory of their own length */
#include <stdio.h>
#include <string.h>

#include "lent.h"
#include "plain_groups.h"

/* What the claims came to: networks, n - 1 marks that are none, several groups, some marked rows in
   rings and others not. */
static unsigned long networks, right_count, several, mixed;

static uint32_t door(struct lent *t) {
    struct handed p = lent_hand(t);
    return lent_back(t, p,
                     ASK(t, p, groups, HANDED(t, p, MARK), HANDED(t, p, GROUPS),
                         HANDED(t, p, RINGS), HANDED(t, p, ANSWER)));
}

/* The refusal: 3 for either column goes before what the rows are refused for, and 6 comes last.
   What star_mst1 says of the table has all but 6. */
static struct star_answer expected(const struct lent *t) {
    struct star_answer a = lent_least(t, RINGS), done = {STAR_PASSED, 0, 0, 0, 0, 0};
    size_t i;
    if (a.kind == STAR_REFUSED && a.number < STAR_BAD_LENGTHS) return a;
    if (t->len[GROUPS] != t->n) return refusal(STAR_BAD_LENGTHS, 0);
    if (a.kind == STAR_REFUSED && a.number != STAR_NO_NETWORK) return a;
    for (i = 1; i <= lent_m(t); i++)
        if (lent_used(t, i) && t->mark[i - 1] > 1) return refusal(STAR_BAD_MARK, (unsigned)i);
    return done;
}

/* What the plain implementation leaves in the columns and in the answer. */
static struct star_answer plain(struct lent *t) {
    static struct rows r;
    struct star_answer a = {STAR_PASSED, 0, 0, 0, 0, 0};
    uint8_t marked[STAR_MAX_ROWS], rings[STAR_MAX_ROWS];
    unsigned count = 0;
    size_t k;
    lent_rows(t, &r);
    for (k = 0; k < r.m; k++) count += marked[k] = t->mark[r.row[k] - 1];
    a.amount = plain_groups(t->n, &r, marked, t->groups);
    a.in = plain_rings(t->n, &r, marked, rings);
    memset(t->rings, 0, lent_m(t));
    for (k = 0; k < r.m; k++) t->rings[r.row[k] - 1] = rings[k];
    several += a.amount > 1 && a.in > 0;
    mixed += a.in > 0 && a.in < count;
    right_count += count + 1 == t->n && a.amount > 1;
    return a;
}

/* Asks about a table, and holds what comes back to the plain implementation. */
static void held(struct lent *t) {
    static struct lent before;
    struct star_answer a = expected(t), judged;
    uint32_t said;
    int network;
    lent_copy(&before, t);
    said = door(t);
    if (lent_refused(t, &before, said, a)) return;
    lent_ended(t, said);
    a = plain(&before);
    tell(said == 1 && lent_answers(t, a), "the numbers of groups and rings");
    memcpy(before.answer, t->answer, STAR_ANSWER_BYTES);
    tell(lent_same(t, &before), "both columns, and what is not written");
    judged = lent_judged(t);
    network = judged.kind != STAR_REFUSED;
    networks += (unsigned long)network;
    tell(network == (a.amount == 1 && a.in == 0), "one group and no ring is a network");
}

/* The yard with marks as digits: the groups, and the rows that close a ring, as digits. */
static void known(const char *in_use, const char *marks, const char *groups, const char *rings) {
    static struct lent t;
    size_t i;
    int ok = 1;
    lent_yard(&t, in_use);
    for (i = 0; i < 5; i++) t.mark[i] = (uint8_t)(marks[i] - '0');
    held(&t);
    for (i = 0; i < 4; i++) ok = ok && t.groups[i] == (uint8_t)(groups[i] - '0');
    for (i = 0; i < 5; i++) ok = ok && t.rings[i] == (uint8_t)(rings[i] - '0');
    tell(ok, "the yard's known groups and rings");
}

/* A refusal of the yard by one byte. */
static void bad_mark(const char *in_use, unsigned byte, unsigned number) {
    static struct lent t;
    lent_yard(&t, in_use);
    t.mark[1] = (uint8_t)byte;
    held(&t);
    if (number) tell(lent_refuses(&t, number, 2) && t.groups[0] == 7, "a known refusal");
    else tell(t.answer[0] == STAR_PASSED, "a byte at a row that is not in use");
}

/* Every row of a large table marked: the deepest search, and all words of the columns. */
static void all_marked(struct lent *t) {
    size_t i;
    for (i = 1; i <= lent_m(t); i++)
        if (lent_used(t, i)) t->mark[i - 1] = 1;
}

/* A path whose rows come from the far end up, so that each row renames all that was joined; and the
   ring of all of them. */
static void paths(void) {
    static struct lent t;
    int working, ring;
    size_t i;
    for (working = 0; working < 2; working++)
        for (ring = 0; ring < 2; ring++) {
            lent_make_large(&t, working);
            memset(t.in_use, 0, 8 * STAR_COLUMN_WORDS);
            for (i = 0; i < 254 + (size_t)ring; i++) {
                size_t row = working ? 4 * i + 4 : i + 1;
                unsigned a = i < 254 ? (unsigned)(254 - i) : 255, b = i < 254 ? a + 1 : 1;
                put_row(t.left, t.right, t.weight, row, a, b, 5);
                star_set_in_use(t.in_use, row, 1);
                t.mark[row - 1] = 1;
            }
            lent_lengths(&t, i);
            held(&t);
            tell(star_read_answer(t.answer).in == (ring ? 255u : 0u), "a long path, and its ring");
        }
}

/* One junction without a row; a row that repeats another goes before a mark of 2 above it. */
static void edges(void) {
    static struct lent t;
    lent_yard(&t, NULL);
    lent_no_rows(&t);
    t.len[GROUPS] = 1;
    held(&t);
    tell(lent_does(&t, 1) && t.groups[0] == 1, "one junction");
    lent_yard(&t, NULL);
    t.left[4] = 2;
    t.mark[0] = 2;
    held(&t);
    tell(lent_refuses(&t, STAR_REPEATED_ROW, 5), "a repeated row below a mark of 2");
}

static void cases(void) {
    lends = LENDS(MARK) | LENDS(RINGS) | LENDS(GROUPS);
    known(NULL, "11100", "1111", "00000");
    known(NULL, "00000", "1234", "00000");
    known(NULL, "11111", "1111", "11111");
    known(NULL, "11001", "1114", "11001");
    known(NULL, "11101", "1111", "11001");
    known(NULL, "10100", "1133", "00000");
    known("134", "11111", "1111", "00000");
    known("125", "11111", "1114", "11001");
    bad_mark(NULL, 2, STAR_BAD_MARK);
    bad_mark(NULL, 255, STAR_BAD_MARK);
    bad_mark("134", 2, 0);
    edges();
    paths();
    lent_small_stacks(door, all_marked, STACK);
    lent_each_length(held);
}

/* Marks: few, half, most or all of the rows, those of a network, and a network with one mark more,
   one less, or one in another place. */
static void marks(struct lent *t) {
    uint32_t how = any(8), share = 1 + any(3);
    size_t i;
    for (i = 1; i <= lent_m(t) && i <= STAR_MAX_ROWS; i++)
        if (lent_used(t, i)) t->mark[i - 1] = any(4) < share;
    if (how < 2) return;
    if (how == 2) {
        all_marked(t);
        return;
    }
    lent_mark(t, t->mark);
    if (how > 4) t->mark[lent_row(t) - 1] ^= 1;
    if (how > 6) t->mark[lent_row(t) - 1] ^= 1;
}

static void table(unsigned long k) {
    static struct lent t;
    lent_make(&t, k);
    marks(&t);
    if (any(7) == 0) lent_damage(&t);
    held(&t);
}

int main(int count, char **words) {
    static const unsigned numbers[] = {1, 2, 3, 4, 6, 15, 0};
    unsigned long tables = run(count, words, 20000, cases, table);
    share(lent_done[0] + lent_done[1], 2, tables, "the share of tables that are not refused");
    share(networks, 8, tables, "the share of networks");
    share(several, 40, tables, "the share of several groups with a ring");
    share(mixed, 8, tables, "the share of marks in rings beside others");
    share(right_count, 100, tables, "the share of n - 1 marks in several groups");
    printf("%lu networks, %lu of n - 1 marks that are none\n", networks, right_count);
    return lent_told("groups", tables, 400, numbers);
}
