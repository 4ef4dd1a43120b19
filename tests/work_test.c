/* Compares the doors of working tables with the plain implementation, on sequences of strikes, rows
 * restored, adds and merges with checks, builds, paths and totals in between. The tables are small
 * ones and the largest, with rows in use at the top, at the bottom, scattered, all of them, or
 * none; what stands at other rows is random. Some calls lend wrong lengths, fifteen or seventeen
 * words, or name rows that are not in use. A claim that passes before a merge, or before an add
 * that packs, is carried through the numbers, and has to pass again with the same total and the
 * same byte 6.
 * usage: work_test [SEQUENCES [exact]]   prints one line 'N passed, M failed' at its end; exact:
 * columns in memory of their own length */
#include <stdio.h>
#include <string.h>

#include "doors.h"

static struct lent t;

/* What the sequences came to. */
static unsigned long done[DOORS], packs, carried, carried_by_add, only;

/* Compares one call, and counts how it ended. */
static void compare(enum door door) { done[door] += lent_ended(&t, doors_agree(&t, door)) != 0; }

/* A table of its own for each sequence: one row more than there are pairs, at most. */
static void fresh(unsigned long k) {
    struct shape s = {1 + any(10), 0, 1, any(8) == 0, any(40) == 0};
    s.m = any(s.n * (s.n - 1) / 2 + 2);
    if (k % 200 == 0) {
        s.n = 255 - any(200);
        s.m = k % 400 ? STAR_MAX_ROWS / 2 : STAR_MAX_ROWS;
        s.apart = 0;
    }
    lends = ALL_LEND;
    lent_table(&t, s);
    if (any(10) == 0) star_set_in_use(t.in_use, STAR_MAX_ROWS, 1);
    if (any(40) == 0) memset(t.in_use, 255, 8 * STAR_COLUMN_WORDS);
    if (any(30) == 0) t.n = any(3) * 128;
}

/* The claim that star_work_mst1 builds, mostly with a random byte at each row not in use; or one
   with a mark changed; or as it was. */
static void claim(void) {
    size_t i;
    if (any(8) == 0) return;
    doors_call(&t, MST1);
    for (i = 1; i <= STAR_MAX_ROWS; i++)
        if (!lent_used(&t, i) && any(4)) t.mark[i - 1] = (uint8_t)bits();
    if (any(3) == 0) t.mark[any(STAR_MAX_ROWS)] ^= 1;
    if (any(3) == 0) t.mark[lent_row(&t) - 1] ^= 1;
}

/* What star_work_mst1 answers, with everything left as it was. */
static struct star_answer least(void) {
    static struct lent copy;
    lends = ALL_LEND;
    lent_copy(&copy, &t);
    return doors_answer(&copy, MST1);
}

/* Makes a call that packs, between two checks of a claim: the second sees the rows that were in use
   before. */
static void packing(enum door door) {
    struct star_answer before, after, least_before, least_after;
    size_t added;
    if (any(2)) claim();
    before = doors_answer(&t, CST);
    least_before = least();
    compare(door);
    if (t.answer[0] != STAR_PASSED) return;
    added = door == ADD ? (size_t)star_read_answer(t.answer).amount : 0;
    compare(CARRY);
    if (added) star_set_in_use(t.in_use, added, 0);
    after = doors_answer(&t, CST);
    least_after = least();
    if (added) star_set_in_use(t.in_use, added, 1);
    tell(least_before.kind == least_after.kind && least_before.number == least_after.number &&
             least_before.amount == least_after.amount,
         "the least total after packing");
    if (before.kind != STAR_PASSED) return;
    carried++;
    carried_by_add += added > 0;
    only += before.only;
    tell(after.kind == STAR_PASSED && after.amount == before.amount && after.only == before.only,
         "a passed claim carried through the numbers");
}

static void strike(void) {
    t.at = lent_any_row(&t);
    if (any(24) == 0) t.at = any(4) * STAR_MAX_ROWS;
    if (any(24) == 0) t.at = STAR_MAX_ROWS + 1 + any(70);
    compare(STRIKE);
}

/* A row that is not in use, or now and then one that is, or none. Where a call is done, the row
   struck again gives the words of before. */
static void restore(void) {
    uint64_t before[STAR_COLUMN_WORDS];
    size_t k;
    t.at = 1 + any(STAR_MAX_ROWS);
    for (k = 0; k < STAR_MAX_ROWS && lent_used(&t, t.at); k++) t.at = t.at % STAR_MAX_ROWS + 1;
    if (any(8) == 0) t.at = lent_any_row(&t);
    if (any(24) == 0) t.at = any(4) * STAR_MAX_ROWS;
    if (any(24) == 0) t.at = STAR_MAX_ROWS + 1 + any(70);
    memcpy(before, t.in_use, sizeof before);
    compare(RESTORE);
    if (t.answer[0] != STAR_PASSED || t.len[ANSWER] != STAR_ANSWER_BYTES || any(2)) return;
    compare(STRIKE);
    tell(!memcmp(before, t.in_use, sizeof before), "a row restored and struck again");
}

static void add(int sound) {
    int last = star_in_use(t.in_use, STAR_MAX_ROWS);
    t.a = (uint8_t)(any(8) ? 1 + any(t.n) : any(256));
    t.b = (uint8_t)(any(8) ? 1 + any(t.n) : any(256));
    t.price = lent_price(&t);
    packs += (unsigned long)last;
    if (sound && last) packing(ADD);
    else compare(ADD);
}

static void merge(int sound) {
    if (sound) packing(MERGE);
    else compare(MERGE);
}

/* Carries marks through numbers that no packing gives: some name no row, some the same one. */
static void carry(void) {
    size_t i;
    for (i = 0; i < STAR_MAX_ROWS; i++) {
        if (any(4) == 0) t.numbers[i] = any(STAR_MAX_ROWS + 4);
        if (any(400) == 0) t.numbers[i] = (uint32_t)bits();
    }
    compare(CARRY);
}

static void procedure(void) {
    uint32_t n = t.n > STAR_MAX_JUNCTIONS ? STAR_MAX_JUNCTIONS : t.n;
    if (t.len[ANSWER] == STAR_ANSWER_BYTES) claim();
    t.at = any(12) ? 1 + any(t.n) : any(300);
    t.len[MATRIX] = STAR_COLUMN_WORDS * (size_t)n + any(20);
    if (any(12) == 0) t.len[MATRIX] = any((uint32_t)t.len[MATRIX] + 1);
    if (any(5) == 0) compare(TOTAL);
    else compare(CST + any(4));
}

static void sequence(unsigned long k) {
    uint32_t steps = 2 + any(8);
    fresh(k);
    while (steps--) {
        int sound = any(9) != 0;
        uint32_t what = any(22);
        lends = ALL_LEND;
        do lent_wrong_length(&t);
        while (any(4) == 0);
        if (sound) lent_lengths(&t, STAR_MAX_ROWS);
        if (what < 6) strike();
        else if (what < 10) add(sound);
        else if (what < 13) merge(sound);
        else if (what < 14) carry();
        else if (what < 16) restore();
        else procedure();
        lent_lengths(&t, STAR_MAX_ROWS);
    }
}

int main(int count, char **words) {
    static const unsigned numbers[] = {3, 17, 18, 27, 0};
    unsigned long sequences = run(count, words, 50000, work_cases, sequence);
    enum door door;
    for (door = 0; door < DOORS; door++)
        share(done[door], 50, sequences, "the share of calls that are not refused");
    share(carried, 10, sequences, "the share of claims that are carried");
    share(carried_by_add, 100, sequences, "the share of claims that an add carries");
    share(only, 100, sequences, "the share of claims that are the only cheapest network");
    share(packs, 50, sequences, "the share of adds after row 1,024");
    share(refused[STAR_NOT_IN_USE], 50, sequences, "the share of rows not in use");
    share(refused[STAR_NOT_STRUCK], 50, sequences, "the share of rows not struck");
    share(refused[STAR_BAD_LENGTHS], 20, sequences, "the share of wrong lengths");
    printf("%lu strikes, %lu rows restored, %lu adds (%lu after row 1024), %lu merges, %lu carried "
           "claims, %lu totals\n",
           done[STRIKE], done[RESTORE], done[ADD], packs, done[MERGE], done[CARRY], done[TOTAL]);
    printf("%lu passed claims carried through the numbers, %lu of them by an add that packs, "
           "%lu of them the only cheapest network\n",
           carried, carried_by_add, only);
    return lent_told("sequences", sequences, 200, numbers);
}
