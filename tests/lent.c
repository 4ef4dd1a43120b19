#include "lent.h"

#include <stdio.h>
#include <stdlib.h>
#include <string.h>

unsigned lends;
size_t answer_len = STAR_ANSWER_BYTES;
unsigned long lent_done[2], lent_unwritten;

/* Where a column stands, the bytes of one of its units, and its bytes with the guard after it. */
#define FIELD(name) ((struct lent *)0)->name
#define COLUMN(name) \
    { offsetof(struct lent, name), sizeof FIELD(name)[0], sizeof FIELD(name) }

static const struct {
    size_t at, unit, bytes;
} COLUMN_OF[COLUMNS] = {
    COLUMN(in_use),  COLUMN(left),   COLUMN(right),   COLUMN(weight), COLUMN(mark),
    COLUMN(second),  COLUMN(rings),  COLUMN(forests), COLUMN(ends),   COLUMN(numbers),
    COLUMN(records), COLUMN(matrix), COLUMN(groups),  COLUMN(text),   COLUMN(answer),
};

static uint8_t *bytes_of(const struct lent *t, enum column c) {
    return (uint8_t *)t + COLUMN_OF[c].at;
}

static size_t room_of(enum column c) { return (COLUMN_OF[c].bytes - GUARD) / COLUMN_OF[c].unit; }

static int is_lent(enum column c) { return c <= WEIGHT || c == ANSWER || (lends >> c & 1); }

/* The columns that have a unit for each row. */
static int is_by_row(enum column c) { return c >= LEFT && c <= FORESTS; }

void lent_lengths(struct lent *t, size_t m) {
    enum column c;
    if (t->working) m = STAR_MAX_ROWS;
    for (c = LEFT; c <= FORESTS; c++) t->len[c] = m;
    t->len[WEIGHT] = 4 * m;
    t->len[IN_USE] = t->working ? STAR_COLUMN_WORDS : 0;
    t->len[NUMBERS] = STAR_MAX_ROWS;
    t->len[RECORDS] = 2 * m;
    t->len[MATRIX] = room_of(MATRIX);
    t->len[GROUPS] = t->n <= STAR_MAX_JUNCTIONS ? t->n : STAR_MAX_JUNCTIONS;
    t->len[TEXT] = STAR_MAX_LIST + any(2) * any(30);
    t->len[ENDS] = m > 0;
    t->ends[0] = (uint32_t)m;
    t->len[ANSWER] = answer_len;
}

static void blank(struct lent *t, int working) {
    enum column c;
    for (c = 0; c < COLUMNS; c++)
        if (is_lent(c)) random_bytes(bytes_of(t, c) - GUARD, COLUMN_OF[c].bytes + GUARD);
    memset(t->in_use, 0, 8 * STAR_COLUMN_WORDS);
    t->working = working;
}

/* Prices of one table are of one kind, so that ties occur in some. */
enum { PRICE_KINDS = 6 };

static int32_t price_of_kind(uint32_t kind) {
    switch (kind) {
    case 0: return (int32_t)any(3);
    case 1: return (int32_t)any(41) - 20;
    case 2: return limit_price();
    case 3: return 1000 + (int32_t)any(1000);
    case 4: return -4;
    default: return (int32_t)(bits() >> 32);
    }
}

/* Where m rows stand, counted from 0: in a working table at the bottom, in one piece, or scattered
   over some or all of it. */
static void places(const struct lent *t, size_t m, size_t *place) {
    uint32_t spare = t->working ? (uint32_t)(STAR_MAX_ROWS - m) : 0, gap = 0, i = 0;
    size_t k;
    switch (any(4)) {
    case 0: i = spare; break;
    case 1: i = any(spare + 1); break;
    case 2: gap = 4; break;
    default: gap = m ? 2 * spare / (uint32_t)m : 0; break;
    }
    spare -= i;
    for (k = 0; k < m; k++) {
        uint32_t skipped = any((gap < spare ? gap : spare) + 1);
        spare -= skipped;
        i += skipped;
        place[k] = i++;
    }
}

static void put_in_use(struct lent *t, size_t row, struct pair p, int32_t price) {
    int turned = any(2) == 0;
    unsigned a = turned ? p.b : p.a, b = turned ? p.a : p.b;
    put_row(t->left, t->right, t->weight, row, a, b, price);
    star_set_in_use(t->in_use, row, 1);
    t->mark[row - 1] = (uint8_t)any(2);
}

static void exchange(uint8_t *x, uint8_t *y) {
    uint8_t kept = *x;
    *x = *y;
    *y = kept;
}

void lent_table(struct lent *t, struct shape s) {
    size_t place[STAR_MAX_ROWS], k;
    uint32_t kind = any(PRICE_KINDS);
    blank(t, s.working);
    t->n = s.n;
    lent_lengths(t, s.m);
    if (s.m > STAR_MAX_ROWS) return;
    places(t, s.m, place);
    no_pair_given();
    for (k = 0; k < s.m; k++) {
        struct pair p = any_pair(s.n, !s.apart && k + 1 < s.n ? k + 1 : 0, s.repeats, 400);
        if (s.n > 1 && p.a == p.b) p.a = p.b % s.n + 1;
        put_in_use(t, place[k] + 1, p, price_of_kind(kind));
    }
    for (k = s.m; k > 1; k--) { /* the rows that join all junctions stand anywhere */
        size_t other = place[any((uint32_t)k)];
        exchange(&t->left[place[k - 1]], &t->left[other]);
        exchange(&t->right[place[k - 1]], &t->right[other]);
    }
}

void lent_make(struct lent *t, unsigned long k) {
    struct shape s = {2 + any(9), 0, k % 2 == 1, any(9) == 0, any(100) == 0};
    size_t pairs;
    s.m = any(16) ? s.n - 1 + any(2 * s.n) : any(20);
    if (k % 500 < 2) {
        s.n = 255 - any(60);
        s.m = STAR_MAX_ROWS - any(3);
    } else if (k % 100 < 2) {
        s.n = 2 + any(100);
        s.m = s.n - 1 + any(200);
    } else if (any(60) == 0) s.n = 1;
    pairs = (size_t)s.n * (s.n - 1) / 2;
    if (s.m > pairs) s.m = pairs;
    lent_table(t, s);
}

void lent_make_large(struct lent *t, int working) {
    struct shape s = {255, STAR_MAX_ROWS, working, 0, 0};
    lent_table(t, s);
}

void lent_yard(struct lent *t, const char *in_use) {
    enum column c;
    for (c = 0; c < COLUMNS; c++) memset(bytes_of(t, c) - GUARD, 7, COLUMN_OF[c].bytes + GUARD);
    memset(t->in_use, 0, sizeof t->in_use);
    t->n = 4;
    t->working = in_use != NULL;
    put_yard(t->left, t->right, t->weight);
    if (!in_use) in_use = "12345";
    for (; *in_use; in_use++) star_set_in_use(t->in_use, (size_t)(*in_use - '0'), 1);
    lent_lengths(t, 5);
    memset(t->mark, 0, 5);
    t->at = t->count = 1;
}

void lent_put(struct lent *t, size_t m, const uint8_t *left, const uint8_t *right,
              const int32_t *price) {
    size_t i;
    memset(t->in_use, 0, 8 * STAR_COLUMN_WORDS);
    for (i = 0; i < m; i++) {
        put_row(t->left, t->right, t->weight, i + 1, left[i], right[i], price[i]);
        star_set_in_use(t->in_use, i + 1, 1);
    }
    lent_lengths(t, m);
}

void lent_no_rows(struct lent *t) {
    t->n = 1;
    t->working = 0;
    lent_lengths(t, 0);
}

void lent_wrong_length(struct lent *t) {
    enum column c = any(COLUMNS);
    while (!is_lent(c) || (c == IN_USE && !t->working)) c = any(COLUMNS);
    wrong_length(&t->len[c], room_of(c));
}

/* More rows than a plain table may have. */
static void too_many(struct lent *t) {
    if (t->working) return;
    lent_lengths(t, STAR_MAX_ROWS + 1 + any(7));
}

void lent_damage(struct lent *t) {
    do {
        size_t i = lent_row(t) - 1, other = lent_row(t) - 1;
        switch (any(10)) {
        case 0: t->n = any(2) ? 0 : 256 + any(1000); break;
        case 1: t->left[i] = (uint8_t)(any(2) ? 0 : t->n + 1); break;
        case 2: t->right[i] = t->left[i]; break;
        case 3:
            t->left[i] = t->right[other];
            t->right[i] = t->left[other];
            break;
        case 4: t->mark[i] = (uint8_t)(2 + any(254)); break;
        case 5: too_many(t); break;
        case 6: star_set_in_use(t->in_use, 1 + any(STAR_MAX_ROWS), any(2) == 0); break;
        default: lent_wrong_length(t); break;
        }
    } while (any(3) == 0);
}

size_t lent_m(const struct lent *t) { return t->working ? STAR_MAX_ROWS : t->len[LEFT]; }

int lent_used(const struct lent *t, size_t row) {
    if (row < 1 || row > lent_m(t) || row > STAR_MAX_ROWS) return 0;
    return !t->working || star_in_use(t->in_use, row);
}

size_t lent_row(const struct lent *t) {
    size_t m = lent_m(t), row, k;
    if (m == 0 || m > STAR_MAX_ROWS) return 1;
    row = any((uint32_t)m);
    for (k = 0; k < m && !lent_used(t, row + 1); k++) row = (row + 1) % m;
    return row + 1;
}

uint32_t lent_any_row(const struct lent *t) {
    switch (any(64)) {
    case 0: return (uint32_t)(bits() >> 32);
    case 1: return any(3) * STAR_MAX_ROWS + any(2);
    case 2: return (uint32_t)t->len[LEFT] + any(3);
    case 3: return 1 + any(STAR_MAX_ROWS);
    default: return (uint32_t)lent_row(t);
    }
}

int32_t lent_price(const struct lent *t) {
    int32_t near = star_get_price(t->weight, lent_row(t) - 1);
    if (any(3)) return price_of_kind(any(PRICE_KINDS));
    if (near == STAR_MIN_PRICE || near == STAR_MAX_PRICE) return near;
    return near - 1 + (int32_t)any(3);
}

void lent_mark(const struct lent *t, uint8_t *mark) {
    static struct rows r;
    uint8_t chosen[STAR_MAX_ROWS];
    uint32_t how = any(3);
    size_t k;
    lent_rows(t, &r);
    for (k = 0; how == 0 && k < r.m; k++) r.price[k] = any(1000);
    if (how == 1 && r.m > 0) r.price[any((uint32_t)r.m)] = any(2) ? STAR_MIN_PRICE : STAR_MAX_PRICE;
    rows_forest(&r, 0, r.m, chosen);
    for (k = 0; k < r.m; k++) mark[r.row[k] - 1] = chosen[k];
}

int64_t lent_sum(const struct lent *t, const uint8_t *mark) {
    static struct rows r;
    int64_t sum = 0;
    size_t k;
    lent_rows(t, &r);
    for (k = 0; k < r.m; k++)
        if (mark[r.row[k] - 1] == 1) sum += r.price[k];
    return sum;
}

void lent_rows(const struct lent *t, struct rows *r) {
    size_t i;
    r->m = 0;
    for (i = 1; i <= lent_m(t) && i <= STAR_MAX_ROWS; i++) {
        if (!lent_used(t, i)) continue;
        r->row[r->m] = i;
        r->a[r->m] = t->left[i - 1];
        r->b[r->m] = t->right[i - 1];
        r->price[r->m++] = star_get_price(t->weight, i - 1);
    }
}

struct call lent_call(struct lent *t) {
    const size_t *len = t->len;
    struct call c = {t->n,      t->left,    t->right,    t->weight, t->mark,
                     len[LEFT], len[RIGHT], len[WEIGHT], len[MARK]};
    return c;
}

const struct in_use *lent_in_use(struct lent *t) {
    static struct in_use u;
    u.words = t->in_use;
    u.count = t->len[IN_USE];
    return t->working ? &u : NULL;
}

struct star_answer lent_least(const struct lent *t, enum column as_long) {
    uint8_t answer[STAR_ANSWER_BYTES], mark[LENT_ROWS];
    struct call c = lent_call((struct lent *)t);
    struct star_answer a;
    c.mark = mark;
    memcpy(mark, t->mark, sizeof mark);
    if (t->working) plain_work_mst1(*lent_in_use((struct lent *)t), &c, answer, sizeof answer);
    else plain_mst1(&c, answer, sizeof answer);
    a = star_read_answer(answer);
    if (a.kind == STAR_REFUSED && a.number < STAR_BAD_LENGTHS) return a;
    return t->len[as_long] == lent_m(t) ? a : refusal(STAR_BAD_LENGTHS, 0);
}

/* What is handed over without a fault: the columns where they stand. */
static struct handed pointers(const struct lent *t) {
    struct handed p;
    enum column c;
    for (c = 0; c < COLUMNS; c++) p.at[c] = is_lent(c) && t->len[c] ? bytes_of(t, c) : NULL;
    return p;
}

struct star_answer lent_judged(const struct lent *t) {
    struct handed p = pointers(t);
    uint8_t answer[STAR_ANSWER_BYTES];
    ASK(t, p, cst, HANDED(t, p, MARK), answer, sizeof answer);
    return star_read_answer(answer);
}

/* The table as it was lent, where doors have faults. */
static struct lent unspoilt;

struct handed lent_hand(struct lent *t) {
    struct handed p;
    enum column c;
    if (has_faults) {
        lent_copy(&unspoilt, t);
        fault_before(t);
    }
    p = pointers(t);
    for (c = 0; c < COLUMNS; c++)
        if (p.at[c]) p.at[c] = lend(p.at[c], t->len[c] * COLUMN_OF[c].unit);
    return p;
}

uint32_t lent_back(struct lent *t, struct handed p, uint32_t said) {
    enum column c;
    for (c = 0; c < COLUMNS; c++)
        if (p.at[c]) back(bytes_of(t, c), p.at[c], t->len[c] * COLUMN_OF[c].unit);
    if (!has_faults) return said;
    memcpy(t, &unspoilt, offsetof(struct lent, before_in_use));
    return fault_after(t, &unspoilt, said);
}

void lent_copy(struct lent *to, const struct lent *from) {
    enum column c;
    memcpy(to, from, offsetof(struct lent, before_in_use));
    for (c = 0; c < COLUMNS; c++)
        if (is_lent(c))
            memcpy(bytes_of(to, c) - GUARD, bytes_of(from, c) - GUARD, COLUMN_OF[c].bytes + GUARD);
}

int lent_same(const struct lent *a, const struct lent *b) {
    enum column c;
    for (c = 0; c < COLUMNS; c++) {
        if (!is_lent(c)) continue;
        if (memcmp(bytes_of(a, c) - GUARD, bytes_of(b, c) - GUARD, COLUMN_OF[c].bytes + GUARD))
            return 0;
    }
    return 1;
}

uint32_t lent_agree(struct lent *t, const char *name, door_call *door, door_call *plain) {
    static struct lent copy;
    uint32_t said, expected;
    lent_copy(&copy, t);
    expected = plain(&copy);
    said = door(t);
    tell(said == expected && lent_same(t, &copy), name);
    return said;
}

int lent_ended(const struct lent *t, uint32_t said) {
    if (t->len[ANSWER] != answer_len || (!said && t->answer[0] != STAR_REFUSED)) lent_unwritten++;
    else if (t->answer[0] == STAR_REFUSED) refused[t->answer[1] % 32]++;
    else {
        lent_done[t->working]++;
        return 1;
    }
    return 0;
}

struct star_answer refusal(unsigned number, unsigned place) {
    struct star_answer a = {STAR_REFUSED, number, place, 0, 0, 0};
    return a;
}

int lent_answers(const struct lent *t, struct star_answer b) {
    struct star_answer a = star_read_answer(t->answer);
    return a.kind == b.kind && a.number == b.number && a.out == b.out && a.in == b.in &&
           a.only == b.only && a.amount == b.amount && t->answer[7] == 0;
}

int lent_refuses(const struct lent *t, unsigned number, unsigned place) {
    return lent_answers(t, refusal(number, place));
}

int lent_does(const struct lent *t, int64_t amount) {
    struct star_answer a = {STAR_PASSED, 0, 0, 0, 0, amount};
    return lent_answers(t, a);
}

int lent_refused(const struct lent *t, struct lent *before, uint32_t said, struct star_answer a) {
    int unwritten = t->len[ANSWER] != answer_len;
    if (unwritten) tell(said == 0 && lent_same(t, before), "an answer of another length");
    if (unwritten || a.kind != STAR_REFUSED) return unwritten;
    refused[a.number]++;
    memcpy(before->answer, t->answer, answer_len);
    tell(said == 1 && lent_answers(t, a) && lent_same(t, before), "a refusal");
    return 1;
}

void lent_each_length(void (*held)(struct lent *)) {
    static struct lent t;
    enum column c;
    int k;
    for (c = 0; c < COLUMNS; c++)
        for (k = 0; is_lent(c) && k < 6; k++) {
            lent_yard(&t, k < 3 ? NULL : "1234");
            t.len[c] = k % 3 == 2 ? 0 : t.len[c] + 2 * (size_t)(k % 3) - 1;
            if (c == IN_USE && !t.working) continue;
            held(&t);
            if (is_by_row(c) || c == IN_USE)
                tell(lent_refuses(&t, STAR_BAD_LENGTHS, 0), "the refusal of a length");
        }
}

struct in_thread {
    door_call *door;
    struct lent *t;
};

static void *call_door(void *with) {
    struct in_thread *own = with;
    own->door(own->t);
    return NULL;
}

int lent_small_stack(door_call *door, struct lent *t, size_t stack) {
    struct in_thread own = {door, t};
    t->answer[0] = 99;
    return on_small_stack(call_door, &own, stack) && t->answer[0] <= STAR_LIGHTER;
}

void lent_small_stacks(door_call *door, void (*ready)(struct lent *), size_t stack) {
    static struct lent t;
    int working;
    for (working = 0; working < 2; working++) {
        lent_make_large(&t, working);
        if (ready) ready(&t);
        tell(lent_small_stack(door, &t, stack), "a thread of the stack that the header names");
        tell(t.answer[0] != STAR_REFUSED, "a large table");
    }
}

int lent_told(const char *what, unsigned long calls, unsigned long one_of,
              const unsigned *numbers) {
    share_refused(numbers, one_of, calls);
    printf("%lu %s: %lu of plain and %lu of working tables, %lu without an answer; ", calls, what,
           lent_done[0], lent_done[1], lent_unwritten);
    print_refused(numbers);
    printf("\n");
    return told();
}
