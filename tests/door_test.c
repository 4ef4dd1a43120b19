/* Compares the doors with the plain implementation on many plain tables: valid and damaged ones,
 * each refusal alone and several at once, boundary lengths, ties, repeated rows, claims that are
 * near the least tree, the largest table, prices of both signs and at their limits. Guard bytes
 * stand around every lent column. Totals and savings are added up once more, in 64 bits with a
 * sign; an exchange of equal prices is made, and what it gives is checked; on small tables every
 * spanning tree is listed, to count those that cost the same. The largest table is tried in a
 * thread with the stack that the header names.
 * usage: door_test [TABLES [exact]]   prints one line 'N passed, M failed' at its end; exact:
 * columns in memory of their own length */
#include <stdio.h>
#include <string.h>

#include "doors.h"

static struct lent t;

/* Passes that were the only cheapest network, and passes that were not. */
static unsigned long only, not_only, totals;

/* Whether the answer's amount is the claim's total, the exchange's saving, or 0. */
static int amount_holds(struct star_answer a) {
    if (a.kind == STAR_PASSED) return a.amount == lent_sum(&t, t.mark);
    if (a.kind != STAR_LIGHTER) return a.amount == 0;
    return a.amount > 0 && a.amount == (int64_t)star_get_price(t.weight, a.out - 1) -
                                           star_get_price(t.weight, a.in - 1);
}

/* Where star_other names an exchange of a claim that passed: a marked row goes out, an unmarked one
   of its price comes in, and star_cst passes what that gives with the same total and the answer
   that it is not the only one. Where it names none: no other row is told. */
static int other_holds(struct star_answer a) {
    static struct lent changed;
    struct star_answer b;
    if (a.kind != STAR_PASSED) return a.only == 0;
    if (a.only) return a.only == 1 && !a.out && !a.in;
    if (!lent_used(&t, a.out) || !lent_used(&t, a.in)) return 0;
    if (t.mark[a.out - 1] != 1 || t.mark[a.in - 1] != 0) return 0;
    if (star_get_price(t.weight, a.out - 1) != star_get_price(t.weight, a.in - 1)) return 0;
    lent_copy(&changed, &t);
    changed.mark[a.out - 1] = 0;
    changed.mark[a.in - 1] = 1;
    b = doors_answer(&changed, CST);
    return b.kind == STAR_PASSED && b.amount == a.amount && !b.only;
}

/* Where a path starts, mostly at a junction that there is, and a matrix that is mostly large
   enough. */
static void follow(void) {
    uint32_t n = t.n > STAR_MAX_JUNCTIONS ? STAR_MAX_JUNCTIONS : t.n;
    size_t need = STAR_COLUMN_WORDS * (size_t)n;
    t.at = 1 + any(t.n);
    if (any(40) == 0) t.at = 0;
    if (any(40) == 0) t.at = t.n + 1 + any(9);
    t.len[MATRIX] = need + any(3) * any(20);
    if (any(20) == 0 && need) t.len[MATRIX] = need - 1 - any(2) * any((uint32_t)need);
}

/* Every door; star_mst1 last, since it writes the marks. */
static void all(void) {
    enum door d;
    totals += doors_agree(&t, TOTAL) == 1 && t.answer[0] == STAR_PASSED;
    for (d = CST; d <= MST1; d++) {
        struct star_answer a;
        int said;
        if (d == PATHS) follow();
        said = doors_agree(&t, d) == 1;
        a = star_read_answer(t.answer);
        if (said && d != PATHS) tell(amount_holds(a), "the amount of an answer");
        if (said && d == OTHER) tell(other_holds(a), "another network of the same total");
        if (said && d == CST) {
            only += a.only;
            not_only += a.kind == STAR_PASSED && !a.only;
        }
    }
}

/* Tables made, those with a price below 0, and those with the least and with the largest price. */
static unsigned long made, below_0, least, largest;

static void count_prices(void) {
    int has_below = 0, has_least = 0, has_largest = 0;
    size_t i;
    for (i = 0; i < t.len[LEFT]; i++) {
        int32_t price = star_get_price(t.weight, i);
        has_below |= price < 0;
        has_least |= price == STAR_MIN_PRICE;
        has_largest |= price == STAR_MAX_PRICE;
    }
    made++;
    below_0 += (unsigned long)has_below;
    least += (unsigned long)has_least;
    largest += (unsigned long)has_largest;
}

/* The limits, each taken and one more refused, with lengths at and past them. */
static void limits(void) {
    static const size_t lengths[] = {0, 1, 2, 63, 64, 65, 1023, 1024, 1025, 1027};
    size_t i;
    for (i = 0; i < 20 * (sizeof lengths / sizeof lengths[0]); i++) {
        struct shape s = {255, lengths[i / 20], 0, 0, 0};
        if (i % 2 == 0) s.n = i % 8 ? 46 + any(60) : 2 + any(60);
        s.repeats = s.m > (size_t)s.n * (s.n - 1) / 2;
        lends = ALL_LEND;
        lent_table(&t, s);
        if (s.m <= STAR_MAX_ROWS) lent_mark(&t, t.mark);
        if (i % 4 == 3) t.n = 256;
        if (i % 4 == 2) t.n = 0;
        all();
    }
}

/* A null pointer with length 0 for each column of each door, alone and for all of them. */
static void nulls(void) {
    static const uint8_t tree[] = {1, 1, 0, 1, 0};
    static const struct {
        const char *empty; /* the columns that are lent as null pointers */
        uint32_t n, returns;
        unsigned kind, number, builds; /* of star_cst and star_other; the refusal of star_mst1 */
        int64_t amount;
    } call[] = {
        {"", 4, 1, STAR_PASSED, 0, 0, 12},
        {"l", 4, 1, STAR_REFUSED, STAR_BAD_LENGTHS, STAR_BAD_LENGTHS, 0},
        {"r", 4, 1, STAR_REFUSED, STAR_BAD_LENGTHS, STAR_BAD_LENGTHS, 0},
        {"w", 4, 1, STAR_REFUSED, STAR_BAD_LENGTHS, STAR_BAD_LENGTHS, 0},
        {"m", 4, 1, STAR_REFUSED, STAR_BAD_LENGTHS, STAR_BAD_LENGTHS, 0},
        {"a", 4, 0, 0, 0, 0, 0},
        {"lrwm", 0, 1, STAR_REFUSED, STAR_BAD_JUNCTION_COUNT, STAR_BAD_JUNCTION_COUNT, 0},
        {"lrwm", 1, 1, STAR_PASSED, 0, 0, 0},
        {"lrwm", 2, 1, STAR_REFUSED, STAR_BAD_MARK_COUNT, STAR_NO_NETWORK, 0},
        {"lrwma", 1, 0, 0, 0, 0, 0},
    };
    static const struct {
        char letter;
        enum column column;
    } named[] = {{'l', LEFT}, {'r', RIGHT}, {'w', WEIGHT}, {'m', MARK}, {'a', ANSWER}};
    size_t i, k;
    enum door d;
    for (i = 0; i < sizeof call / sizeof call[0]; i++)
        for (d = CST; d <= MST1; d++) {
            struct star_answer a;
            lent_yard(&t, NULL);
            memcpy(t.mark, tree, sizeof tree);
            t.n = call[i].n;
            for (k = 0; k < 5; k++)
                if (strchr(call[i].empty, named[k].letter)) t.len[named[k].column] = 0;
            if (i % 2) t.len[MATRIX] = 0;
            tell(doors_agree(&t, d) == call[i].returns, "what is returned to null pointers");
            if (!call[i].returns || d == PATHS) continue;
            a = star_read_answer(t.answer);
            tell(a.kind == call[i].kind && a.amount == call[i].amount &&
                     a.number == (d == MST1 ? call[i].builds : call[i].number) &&
                     (d == OTHER || (!a.out && !a.in)) &&
                     a.only == (d != MST1 && a.kind == STAR_PASSED && call[i].n == 1),
                 "a door's answer to null pointers");
        }
}

/* The doors in a thread of 160 KiB, on the largest table: the tree that is built passes, and its
   paths are found. */
static void *small(void *unused) {
    t.at = 255;
    tell(doors_answer(&t, MST1).kind == STAR_PASSED, "the largest table built");
    tell(doors_answer(&t, PATHS).kind == STAR_PASSED, "the paths of the largest table");
    tell(doors_answer(&t, OTHER).kind == STAR_PASSED, "another network of the largest table");
    tell(doors_answer(&t, CST).kind == STAR_PASSED, "the largest table checked");
    return unused;
}

static void small_stack(void) {
    lends = ALL_LEND;
    lent_make_large(&t, 0);
    tell(on_small_stack(small, NULL, STACK), "a thread of 160 KiB");
}

/* Prices as they are packed. */
static void packed(void) {
    static const struct {
        int32_t price;
        uint8_t bytes[4];
    } known[] = {
        {0, {0, 0, 0, 0}},
        {5, {5, 0, 0, 0}},
        {-1, {255, 255, 255, 255}},
        {-3, {253, 255, 255, 255}},
        {-256, {0, 255, 255, 255}},
        {STAR_MAX_PRICE, {255, 255, 255, 127}},
        {STAR_MIN_PRICE, {0, 0, 0, 128}},
    };
    size_t i;
    for (i = 0; i < sizeof known / sizeof known[0]; i++) {
        uint8_t bytes[12] = {7, 7, 7, 7, 7, 7, 7, 7, 7, 7, 7, 7};
        star_put_price(bytes, 1, known[i].price);
        tell(!memcmp(bytes + 4, known[i].bytes, 4) && bytes[3] == 7 && bytes[8] == 7 &&
                 star_get_price(bytes, 1) == known[i].price,
             "a packed price");
    }
}

/* Tables whose answers are known: the yard with prices below 0, a triangle of them, two cheapest
   networks and one, the two limits of a price, and repeated rows: the place is the later one, a bad
   end goes before, and a bad mark after. Named: what star_other says to take out and put in. */
static const struct {
    uint32_t n;
    size_t m;
    uint8_t left[5], right[5];
    int32_t price[5];
    uint8_t claim[5];
    struct star_answer checked;
    unsigned named[2];
    uint8_t tree[5];
    struct star_answer built;
} KNOWN[] = {
#define YARD \
    {1, 2, 3, 1, 1}, { 2, 3, 4, 4, 3 }
#define TRIANGLE \
    {1, 2, 1}, { 2, 3, 3 }
#define LOW STAR_MIN_PRICE
#define HIGH STAR_MAX_PRICE
#define REFUSE(number, place) \
    { 0, number, place, 0, 0, 0 }
#define PASS(only, amount) \
    { 1, 0, 0, 0, only, amount }
#define EXCHANGE(out, in, saving) \
    { 2, 0, out, in, 0, saving }
    {4,
     5,
     YARD,
     {5, -3, 5, -4, LOW},
     {1, 1, 0, 1, 0},
     EXCHANGE(1, 5, INT64_C(2147483653)),
     {1, 5},
     {0, 1, 0, 1, 1},
     PASS(0, INT64_C(-2147483655))},
    {4,
     5,
     YARD,
     {5, -3, 5, -4, LOW},
     {0, 1, 0, 1, 1},
     PASS(1, INT64_C(-2147483655)),
     {0, 0},
     {0, 1, 0, 1, 1},
     PASS(0, INT64_C(-2147483655))},
    {4,
     5,
     YARD,
     {5, 3, 5, 4, 6},
     {1, 1, 0, 1, 0},
     PASS(0, 12),
     {1, 3},
     {1, 1, 0, 1, 0},
     PASS(0, 12)},
    {4,
     5,
     YARD,
     {5, 3, 5, 4, 6},
     {0, 1, 1, 1, 0},
     PASS(0, 12),
     {3, 1},
     {1, 1, 0, 1, 0},
     PASS(0, 12)},
    {4,
     4,
     {1, 2, 2, 3},
     {2, 3, 4, 4},
     {9, 1, 1, 1},
     {1, 1, 1, 0},
     PASS(0, 11),
     {2, 4},
     {1, 1, 1, 0},
     PASS(0, 11)},
    {3, 3, TRIANGLE, {2, 2, 3}, {1, 1, 0}, PASS(1, 4), {0, 0}, {1, 1, 0}, PASS(0, 4)},
    {3, 3, TRIANGLE, {-1, -1, -1}, {1, 1, 1}, REFUSE(9, 0), {0, 0}, {1, 1, 0}, PASS(0, -2)},
    {3, 3, TRIANGLE, {-1, -1, -1}, {0, 1, 1}, PASS(0, -2), {2, 1}, {1, 1, 0}, PASS(0, -2)},
    {3,
     3,
     TRIANGLE,
     {HIGH, LOW, LOW},
     {1, 1, 0},
     EXCHANGE(1, 3, INT64_C(4294967295)),
     {1, 3},
     {0, 1, 1},
     PASS(0, INT64_C(-4294967296))},
    {2, 2, {1, 2}, {2, 1}, {5, 3}, {1, 0}, REFUSE(15, 2), {2, 0}, {1, 0}, REFUSE(15, 2)},
    {3,
     3,
     {1, 2, 1},
     {2, 1, 2},
     {5, 3, 1},
     {7, 0, 0},
     REFUSE(15, 2),
     {2, 0},
     {7, 0, 0},
     REFUSE(15, 2)},
    {3,
     3,
     {1, 2, 3},
     {2, 1, 3},
     {5, 3, 1},
     {1, 1, 0},
     REFUSE(4, 3),
     {3, 0},
     {1, 1, 0},
     REFUSE(4, 3)},
    {12, 2, {1, 12}, {12, 3}, {5, 3}, {1, 1}, REFUSE(9, 0), {0, 0}, {1, 1}, REFUSE(11, 0)},
    {2, 1, {1}, {2}, {LOW}, {1}, PASS(1, LOW), {0, 0}, {1}, PASS(0, LOW)},
    {2, 1, {1}, {2}, {HIGH}, {1}, PASS(1, HIGH), {0, 0}, {1}, PASS(0, HIGH)},
    {1, 0, {0}, {0}, {0}, {0}, PASS(1, 0), {0, 0}, {0}, PASS(0, 0)},
};

static void known(void) {
    size_t i;
    for (i = 0; i < sizeof KNOWN / sizeof KNOWN[0]; i++) {
        size_t m = KNOWN[i].m;
        struct star_answer a;
        lent_yard(&t, NULL);
        t.n = KNOWN[i].n;
        lent_put(&t, m, KNOWN[i].left, KNOWN[i].right, KNOWN[i].price);
        memcpy(t.mark, KNOWN[i].claim, m);
        all();
        memcpy(t.mark, KNOWN[i].claim, m);
        doors_call(&t, CST);
        tell(lent_answers(&t, KNOWN[i].checked), "star_cst's known answer");
        a = doors_answer(&t, OTHER);
        tell(a.out == KNOWN[i].named[0] && a.in == KNOWN[i].named[1], "a known exchange");
        doors_call(&t, MST1);
        tell(lent_answers(&t, KNOWN[i].built), "star_mst1's known answer");
        tell(!memcmp(t.mark, KNOWN[i].tree, m), "star_mst1's known tree");
    }
}

/* The least and the largest total: a chain of 255 junctions, all prices at a limit. */
static void total_at(int32_t price) {
    unsigned k;
    lent_yard(&t, NULL);
    t.n = 255;
    for (k = 1; k <= 254; k++) put_row(t.left, t.right, t.weight, k, k, k + 1, price);
    memset(t.mark, 1, 254);
    lent_lengths(&t, 254);
    all();
    tell(lent_does(&t, 254 * (int64_t)price), "the total at a limit");
}

/* How many networks have less than a total, and how many have it. */
struct networks {
    int64_t total;
    unsigned long less, equal;
};

static void count_network(void *with, unsigned here, int64_t total) {
    struct networks *n = with;
    (void)here;
    n->less += total < n->total;
    n->equal += total == n->total;
}

/* Small tables with every network listed: none is cheaper than one that passes, and byte 6 says
   whether no other costs the same. */
static void listed(unsigned long tables) {
    static struct rows r;
    while (tables-- > 0) {
        uint32_t n = 1 + any(6);
        size_t pairs = (size_t)n * (n - 1) / 2, m = n - 1 + any(n < 4 ? 4 : 6);
        struct shape s = {n, m < pairs ? m : pairs, 0, 0, 0};
        struct networks counted = {0, 0, 0};
        struct star_answer a;
        lends = ALL_LEND;
        lent_table(&t, s);
        doors_call(&t, MST1);
        a = doors_answer(&t, CST);
        if (a.kind != STAR_PASSED) continue;
        counted.total = a.amount;
        lent_rows(&t, &r);
        rows_networks(n, &r, 0, count_network, &counted);
        tell(counted.less == 0 && a.only == (counted.equal == 1), "a pass, all networks listed");
    }
}

static void table(unsigned long k) {
    if (k % 50 == 0) listed(1);
    lends = ALL_LEND;
    lent_make(&t, 2 * k);
    if (any(4)) lent_mark(&t, t.mark);
    count_prices();
    if (any(3) == 0) lent_damage(&t);
    all();
}

static void cases(void) {
    packed();
    known();
    total_at(STAR_MIN_PRICE);
    total_at(STAR_MAX_PRICE);
    limits();
    nulls();
    small_stack();
    listed(20);
}

int main(int count, char **words) {
    unsigned long tables = run(count, words, 200000, cases, table);
    share(below_0, 2, tables, "the share of tables with a price below 0");
    share(only, 40, tables, "the share of passes with one cheapest network");
    share(not_only, 40, tables, "the share of passes with more than one");
    share(totals, 2, tables, "the share of totals");
    printf("%lu tables: %lu with a price below 0, %lu with the least price, %lu with the largest\n",
           made, below_0, least, largest);
    printf("%lu passes of the only cheapest network, %lu of one among others\n", only, not_only);
    return told();
}
