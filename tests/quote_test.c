/* Compares star_quote and star_work_quote with the plain implementation: both totals, the refusals
 * in their order, the twenty-four bytes and all that stands around what is lent. Where totals are
 * given, they differ by at most the change in price, and never in the opposite direction.
 * usage: quote_test [QUOTES [exact]]   prints one line 'N passed, M failed' at its end; exact:
 * columns in memory of their own length */
#include "lent.h"
#include "plain_asked.h"

static unsigned long moved, kept;

static uint32_t door(struct lent *t) {
    struct handed p = lent_hand(t);
    return lent_back(t, p, ASK(t, p, quote, t->at, t->price, HANDED(t, p, ANSWER)));
}

static uint32_t plain(struct lent *t) {
    struct call c = lent_call(t);
    return plain_quote(lent_in_use(t), &c, t->at, t->price, t->answer, t->len[ANSWER]);
}

/* Whether the totals move as the price does: by no more, and not the other way. */
static int bounded(struct star_quoted q, int64_t change) {
    int64_t move = q.after - q.before;
    return change >= 0 ? move >= 0 && move <= change : move <= 0 && move >= change;
}

static void one(struct lent *t, uint32_t row, int32_t price) {
    struct star_quoted q;
    uint32_t said;
    t->at = row;
    t->price = price;
    said = lent_agree(t, "quote", door, plain);
    q = star_read_quoted(t->answer);
    if (!lent_ended(t, said)) {
        if (said) tell(q.before == 0 && q.after == 0, "the totals of a refusal");
        return;
    }
    if (q.after == q.before) kept++;
    else moved++;
    tell(row >= 1 && row <= LENT_ROWS &&
             bounded(q, (int64_t)price - star_get_price(t->weight, row - 1)),
         "the bound of a quote");
}

/* The yard's known quotes, on both kinds of table. */
static void known(void) {
    static const struct {
        uint32_t row;
        int32_t price;
        unsigned number;
        int64_t before, after;
    } call[] = {
        {4, 9, 0, 12, 13},
        {4, -3, 0, 12, 5},
        {5, 1, 0, 12, 8},
        {5, 100, 0, 12, 12},
        {0, 1, 7, 0, 0},
        {6, 1, 7, 0, 0},
        {1024, 1, 7, 0, 0},
        {1025, 1, 7, 0, 0},
        {4, STAR_MIN_PRICE, 0, 12, 8 + (int64_t)STAR_MIN_PRICE},
    };
    static struct lent t;
    size_t i;
    for (i = 0; i < 2 * (sizeof call / sizeof call[0]); i++) {
        struct star_quoted q;
        lent_yard(&t, i % 2 ? "12345" : NULL);
        one(&t, call[i / 2].row, call[i / 2].price);
        q = star_read_quoted(t.answer);
        tell(q.kind == (call[i / 2].number ? STAR_REFUSED : STAR_PASSED) && q.place == 0 &&
                 q.number == call[i / 2].number && q.before == call[i / 2].before &&
                 q.after == call[i / 2].after,
             "a known quote");
    }
    /* a row that is not there is told before a table without a network; nothing is lent */
    lent_yard(&t, NULL);
    t.n = 5;
    one(&t, 6, 1);
    tell(t.answer[1] == STAR_BAD_SOURCE, "7 before 11");
    one(&t, 5, 1);
    tell(t.answer[1] == STAR_NO_NETWORK, "11");
    lent_no_rows(&t);
    one(&t, 1, 1);
    tell(t.answer[1] == STAR_BAD_SOURCE, "one junction has no row");
}

static void row_1(struct lent *t) {
    star_set_in_use(t->in_use, 1, 1);
    t->at = 1;
    t->price = 7;
}

static void held(struct lent *t) { one(t, 1, 7); }

static void cases(void) {
    lends = 0;
    answer_len = STAR_QUOTE_BYTES;
    known();
    lent_each_length(held);
    lent_small_stacks(door, row_1, STACK);
}

static void table(unsigned long k) {
    static struct lent t;
    uint32_t row;
    lent_make(&t, k);
    row = lent_any_row(&t);
    if (any(6) == 0) lent_damage(&t);
    one(&t, row, lent_price(&t));
}

int main(int count, char **words) {
    static const unsigned numbers[] = {1, 2, 3, 4, 15, 7, 11, 0};
    unsigned long quotes = run(count, words, 20000, cases, table);
    share(lent_done[0], 4, quotes, "the share of quotes of plain tables");
    share(lent_done[1], 4, quotes, "the share of quotes of working tables");
    share(moved, 8, quotes, "the share of totals that move");
    share(kept, 8, quotes, "the share of totals that stay");
    return lent_told("quotes", quotes, 1500, numbers);
}
