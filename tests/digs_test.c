/* Compares star_digs, star_work_digs, star_plan_digs and star_work_plan_digs with the plain
 * implementation, and star_digs_text with star_import and the plain implementation of what that
 * reads: the list to its last byte, the bytes behind it, the refusals in their order, the answer,
 * and all that stands around what is lent.
 * usage: digs_test [LISTS [exact]]   prints one line 'N passed, M failed' at its end; exact:
 * columns in memory of their own length */
#include <stdio.h>
#include <stdlib.h>
#include <string.h>

#include "lent.h"
#include "plain_asked.h"

static unsigned long from_texts, of_plans, not_least;

static uint32_t door(struct lent *t) {
    struct handed p = lent_hand(t);
    return lent_back(t, p, ASK(t, p, digs, HANDED(t, p, TEXT), HANDED(t, p, ANSWER)));
}

static uint32_t plain(struct lent *t) {
    struct call c = lent_call(t);
    return plain_digs(lent_in_use(t), &c, t->text, t->len[TEXT], t->answer, t->len[ANSWER]);
}

static void one(struct lent *t) {
    t->door = 0;
    lent_ended(t, lent_agree(t, "digs", door, plain));
}

/* A plan's own list: the claim is lent too. A claim that is a tree and not least is listed as it
 * is. */
static uint32_t plan_door(struct lent *t) {
    struct handed p = lent_hand(t);
    return lent_back(
        t, p, ASK(t, p, plan_digs, HANDED(t, p, MARK), HANDED(t, p, TEXT), HANDED(t, p, ANSWER)));
}

static uint32_t plan_plain(struct lent *t) {
    struct call c = lent_call(t);
    return plain_plan_digs(lent_in_use(t), &c, t->text, t->len[TEXT], t->answer, t->len[ANSWER]);
}

static void plan(struct lent *t) {
    t->door = 2;
    if (!lent_ended(t, lent_agree(t, "plan_digs", plan_door, plan_plain))) return;
    of_plans++;
    not_least += lent_judged(t).kind == STAR_LIGHTER;
}

/* Marks that are a tree, or near one. */
static void put_plan(struct lent *t) { lent_mark(t, t->mark); }

static void spoil_plan(struct lent *t) {
    if (any(8) == 0) t->mark[lent_row(t) - 1] ^= (uint8_t)(any(3) ? 1 : 2 + any(250));
    if (any(8) == 0) {
        t->mark[lent_row(t) - 1] = 0;
        t->mark[lent_row(t) - 1] = 1;
    }
}

/* The STP text that the next two calls are about. */
static char stp[STAR_MAX_TEXT];
static size_t stp_len;

/* An STP text of a plain table, cut short or with a byte changed at times. */
static void put_stp(const struct lent *t) {
    size_t m = lent_m(t), i;
    stp_len = (size_t)sprintf(stp, "33D32945 STP\nSECTION Graph\nNodes %u\nEdges %zu\n", t->n,
                              m + (any(20) == 0));
    for (i = 0; i < m; i++)
        stp_len += (size_t)sprintf(stp + stp_len, "E %u %u %d\n", t->left[i], t->right[i],
                                   (int)star_get_price(t->weight, i));
    stp_len += (size_t)sprintf(stp + stp_len, "END\nEOF\n");
    if (any(12) == 0) stp_len = any((uint32_t)stp_len);
    if (any(12) == 0 && stp_len > 0) stp[any((uint32_t)stp_len)] = (char)bits();
}

/* The door over a copy of the text, which has to stay as it is. */
static uint32_t text_door(struct lent *t) {
    struct handed p = lent_hand(t);
    uint8_t *copy = malloc(stp_len + 1);
    uint32_t said;
    if (!copy) exit(3);
    memcpy(copy, stp, stp_len);
    said = star_digs_text(stp_len ? copy : NULL, stp_len, HANDED(t, p, TEXT), HANDED(t, p, ANSWER));
    tell(!memcmp(copy, stp, stp_len), "the text that is read");
    free(copy);
    return lent_back(t, p, said);
}

/* What star_import refuses is refused as it does, and what it reads has the list of its table. */
static uint32_t text_plain(struct lent *t) {
    static uint8_t left[STAR_MAX_ROWS], right[STAR_MAX_ROWS], weight[4 * STAR_MAX_ROWS];
    uint8_t answer[STAR_ANSWER_BYTES];
    struct star_imported i;
    int written = t->len[ANSWER] == STAR_ANSWER_BYTES && t->len[TEXT] >= STAR_MAX_LIST;
    star_import((uint8_t *)stp, stp_len, left, sizeof left, right, sizeof right, weight,
                sizeof weight, answer, sizeof answer);
    i = star_read_imported(answer);
    if (i.kind == STAR_PASSED) {
        struct call c = {i.n, left, right, weight, NULL, i.m, i.m, 4 * i.m, 0};
        plain_digs(NULL, &c, t->text, t->len[TEXT], t->answer, t->len[ANSWER]);
    } else if (written) memcpy(t->answer, answer, sizeof answer);
    return (uint32_t)written;
}

static void from_text(struct lent *t) {
    put_stp(t);
    t->door = 1;
    from_texts += (unsigned long)lent_ended(t, lent_agree(t, "digs_text", text_door, text_plain));
}

/* The yard's list, and the text of 6,369 bytes that is not taken. */
static void known(const char *in_use) {
    static const char list[] = "1 1 2 5\n2 2 3 3\n4 1 4 4\nTotal 12\n";
    static struct lent t;
    lent_yard(&t, in_use);
    one(&t);
    tell(lent_does(&t, (int64_t)strlen(list)) && !memcmp(t.text, list, strlen(list)),
         "the yard's list");
    t.len[TEXT] = STAR_MAX_LIST - 1;
    one(&t);
    lent_yard(&t, in_use);
    t.len[ANSWER]--;
    one(&t);
    lent_yard(&t, in_use);
    t.n = 5;
    one(&t);
    tell(lent_refuses(&t, STAR_NO_NETWORK, 0), "11");
}

/* Plans of the yard whose lists are known: a dearer tree, a ring, two marks, and a byte 9. */
static const struct {
    uint8_t mark[5];
    unsigned number, place;
    const char *list;
} PLAN[] = {
    {{1, 1, 0, 1, 0}, 0, 0, "1 1 2 5\n2 2 3 3\n4 1 4 4\nTotal 12\n"},
    {{1, 0, 0, 1, 1}, 0, 0, "1 1 2 5\n4 1 4 4\n5 1 3 6\nTotal 15\n"},
    {{1, 1, 0, 0, 1}, STAR_NOT_JOINED, 4, ""},
    {{1, 1, 0, 0, 0}, STAR_BAD_MARK_COUNT, 0, ""},
    {{1, 1, 0, 9, 9}, STAR_BAD_MARK, 4, ""},
};

static void known_plans(const char *in_use) {
    static struct lent t;
    size_t i;
    for (i = 0; i < sizeof PLAN / sizeof PLAN[0]; i++) {
        size_t len = strlen(PLAN[i].list);
        lent_yard(&t, in_use);
        memcpy(t.mark, PLAN[i].mark, 5);
        plan(&t);
        if (PLAN[i].number) tell(lent_refuses(&t, PLAN[i].number, PLAN[i].place), "a plan refused");
        else tell(lent_does(&t, (int64_t)len) && !memcmp(t.text, PLAN[i].list, len), "a plan");
    }
    memcpy(t.mark, PLAN[0].mark, 5);
    t.len[TEXT] = STAR_MAX_LIST - 1;
    plan(&t);
    t.len[TEXT] = STAR_MAX_LIST;
    t.len[ANSWER]--;
    plan(&t);
}

static void plan_held(struct lent *t) {
    memcpy(t->mark, PLAN[1].mark, 5);
    if (t->working) memcpy(t->mark, PLAN[0].mark, 5); /* row 5 is not in use */
    plan(t);
}

/* A star at the bottom of the table has the longest lines; its list fits. */
static void longest(void) {
    static struct lent t;
    unsigned k;
    lent_yard(&t, "");
    t.n = 255;
    for (k = 1; k <= 254; k++) {
        size_t row = STAR_MAX_ROWS - 254 + k;
        put_row(t.left, t.right, t.weight, row, 255, k, STAR_MIN_PRICE);
        star_set_in_use(t.in_use, row, 1);
    }
    one(&t);
    tell(t.answer[0] == STAR_PASSED && star_read_answer(t.answer).amount <= STAR_MAX_LIST &&
             star_read_answer(t.answer).amount > 5900,
         "the longest list");
    memset(t.mark + STAR_MAX_ROWS - 254, 1, 254);
    plan(&t);
    tell(t.answer[0] == STAR_PASSED && star_read_answer(t.answer).amount > 5900,
         "the longest plan");
}

static void *ask_text(void *table) {
    from_text(table);
    return NULL;
}

static void cases(void) {
    static struct lent t;
    lends = LENDS(TEXT);
    known(NULL);
    known("12345");
    lent_each_length(one);
    lent_small_stacks(door, NULL, STACK);
    lends = LENDS(TEXT) | LENDS(MARK);
    longest();
    known_plans(NULL);
    known_plans("12345");
    lent_each_length(plan_held);
    lent_small_stacks(plan_door, put_plan, STACK);
    lent_make_large(&t, 0);
    tell(on_small_stack(ask_text, &t, STACK_TEXT), "a thread of 1,280 KiB");
}

static void table(unsigned long k) {
    static struct lent t;
    lent_make(&t, k);
    if (any(5) == 0) lent_damage(&t);
    one(&t);
    lent_make(&t, k);
    put_plan(&t);
    spoil_plan(&t);
    if (any(5) == 0) lent_damage(&t);
    plan(&t);
    if (k % 8 != 0) return;
    lent_make(&t, k);
    if (any(20) == 0) t.len[TEXT] = any(STAR_MAX_LIST);
    if (any(20) == 0) t.len[ANSWER] = any(30) % STAR_QUOTE_BYTES;
    from_text(&t);
}

int main(int count, char **words) {
    static const unsigned numbers[] = {1, 2, 3, 4, 15, 6, 9, 10, 11, 12, 13, 0};
    unsigned long lists = run(count, words, 20000, cases, table);
    share(lent_done[0], 4, lists, "the share of lists of plain tables");
    share(lent_done[1], 4, lists, "the share of lists of working tables");
    share(from_texts, 20, lists, "the share of lists of texts");
    share(of_plans, 4, lists, "the share of lists of plans");
    share(not_least, 10, lists, "the share of plans that are not least");
    return lent_told("lists", lists, 1500, numbers);
}
