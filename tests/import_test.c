/* Holds star_import to the plain reader of tests/stp, on the texts that tests/stp/generate.py wrote
 * to a file, and to what it promises of the lent bytes: guard bytes around every column and the
 * answer, rows past m, columns and answers of wrong lengths, null pointers. All of it runs in a
 * thread with a stack of 1,280 KiB, which the header says is enough for any text.
 * usage: import_test FILE [EVERY]   takes each EVERYth text; prints one line 'N passed, M
 * failed' */
#include <stdio.h>
#include <stdlib.h>
#include <string.h>

#include "lent.h"

enum { ROWS = STAR_MAX_ROWS, DEEPEST = 4677 };

/* A text of the file, with the plain reader's answer and rows. */
struct item {
    uint8_t *text;
    size_t len;
    uint8_t answer[STAR_ANSWER_BYTES], left[ROWS], right[ROWS], weight[4 * ROWS];
    struct star_imported said;
};

/* The text that calls are about, its number in the file, and what it is lent. */
static struct item text;
static unsigned long number;
static struct lent t;

/* The text is a copy in a block of its own length, so that a memory checker sees a byte read past
   it. */
static uint32_t door(struct lent *l) {
    struct handed p = lent_hand(l);
    uint8_t *copy = text.len ? malloc(text.len) : NULL;
    uint32_t said;
    if (text.len) memcpy(copy, text.text, text.len);
    said = star_import(copy, text.len, TABLE(l, p), HANDED(l, p, ANSWER));
    tell(!text.len || !memcmp(copy, text.text, text.len), "the text that is read");
    free(copy);
    return lent_back(l, p, said);
}

/* 12, 13, 1 and 2 go before the lengths, 4 and 15 after them; only whole columns are written. */
static uint32_t plain(struct lent *l) {
    const struct star_imported *i = &text.said;
    int later =
        i->kind == STAR_PASSED || i->number == STAR_BAD_END || i->number == STAR_REPEATED_ROW;
    int whole = l->len[LEFT] == ROWS && l->len[RIGHT] == ROWS && l->len[WEIGHT] == 4 * ROWS;
    if (l->len[ANSWER] != STAR_ANSWER_BYTES) return 0;
    if (!whole && later) {
        memset(l->answer, 0, STAR_ANSWER_BYTES);
        l->answer[1] = STAR_BAD_LENGTHS;
        return 1;
    }
    memcpy(l->answer, text.answer, STAR_ANSWER_BYTES);
    memcpy(l->left, text.left, i->m);
    memcpy(l->right, text.right, i->m);
    memcpy(l->weight, text.weight, 4 * i->m);
    return 1;
}

/* Lends columns and an answer of some lengths. */
static void one(size_t left, size_t right, size_t weight, size_t answer) {
    struct shape none = {4, 0, 0, 0, 0};
    char name[40];
    lent_table(&t, none);
    t.len[LEFT] = left;
    t.len[RIGHT] = right;
    t.len[WEIGHT] = weight;
    t.len[ANSWER] = answer;
    sprintf(name, "text %lu", number);
    lent_ended(&t, lent_agree(&t, name, door, plain));
}

static size_t near_rows(void) {
    static const size_t near[] = {0,        1,    4,        255,      1000,
                                  ROWS - 1, ROWS, ROWS + 1, ROWS + 4, LENT_ROWS};
    return near[any(sizeof near / sizeof near[0])];
}

static void every_way(void) {
    static const size_t answers[] = {0, 1, 8, 15, 17, 32, 40};
    size_t left = ROWS, right = ROWS, weight = 4 * ROWS;
    one(left, right, weight, STAR_ANSWER_BYTES);
    switch (any(4)) {
    case 0: left = near_rows(); break;
    case 1: right = near_rows(); break;
    case 2: weight = 4 * near_rows() - any(2); break;
    default:
        left = near_rows();
        right = any(2) ? left : near_rows();
        weight = 4 * (any(2) ? left : near_rows());
    }
    if (weight > 4 * LENT_ROWS) weight = 0;
    if (left == ROWS && right == ROWS && weight == 4 * ROWS) right--;
    one(left, right, weight, STAR_ANSWER_BYTES);
    one(any(2) ? ROWS : 3, any(2) ? ROWS : 0, 4 * ROWS,
        answers[any(sizeof answers / sizeof answers[0])]);
}

/* Every way to lend empty columns, or columns of m rows and no more, to one text that is read; and
   answers of every length. */
static void lent_short(void) {
    size_t m = text.said.m, i;
    for (i = 0; i < 16; i++)
        one(i & 1 ? ROWS : 0, i & 2 ? ROWS : 0, i & 4 ? 4 * ROWS : 0,
            i & 8 ? STAR_ANSWER_BYTES : 0);
    if (m < ROWS) one(m, m, 4 * m, STAR_ANSWER_BYTES);
    for (i = 0; i <= 40; i++) one(ROWS, ROWS, 4 * ROWS, i);
}

/* What was imported goes on to the builder and to the check: its first m rows. All 1,024 rows are
   refused, since rows past m are no rows of the table. */
static void go_on(const char *yard, const uint8_t tree[5], int64_t total) {
    uint8_t l[ROWS] = {0}, r[ROWS] = {0}, w[4 * ROWS] = {0}, mark[ROWS] = {0}, a[STAR_ANSWER_BYTES];
    struct star_imported got;
    struct star_answer built;
    star_import((const uint8_t *)yard, strlen(yard), l, ROWS, r, ROWS, w, 4 * ROWS, a, sizeof a);
    got = star_read_imported(a);
    tell(got.kind == STAR_PASSED && got.number == 0 && got.n == 4 && got.m == 5 && got.place == 0,
         "the yard");
    star_mst1(4, l, 5, r, 5, w, 20, mark, 5, a, sizeof a);
    built = star_read_answer(a);
    tell(built.kind == STAR_PASSED && built.amount == total && !memcmp(mark, tree, 5),
         "the yard, built");
    star_cst(4, l, 5, r, 5, w, 20, mark, 5, a, sizeof a);
    built = star_read_answer(a);
    tell(built.kind == STAR_PASSED && built.amount == total, "the yard, checked");
    star_mst1(4, l, ROWS, r, ROWS, w, 4 * ROWS, mark, ROWS, a, sizeof a);
    built = star_read_answer(a);
    tell(built.kind == STAR_REFUSED && built.number == STAR_BAD_END && built.out == 6,
         "the yard, all rows");
}

static void yards(void) {
    static const uint8_t tree[5] = {1, 1, 0, 1, 0}, granted[5] = {0, 1, 0, 1, 1};
    go_on("33D32945 the yard\nSECTION Graph\nNodes 4\nEdges 5\nE 1 2 5\nE 2 3 3\nE 3 4 5\n"
          "E 1 4 4\nE 1 3 6\nEND\nEOF\n",
          tree, 12);
    go_on("33D32945 the yard with grants\nSECTION Graph\nNodes 4\nEdges 5\nE 1 2 5\nE 2 3 -3\n"
          "E 3 4 5\nE 1 4 -4\nE 1 3 -2147483648\nEND\nEOF\n",
          granted, INT64_C(-2147483655));
}

/* No text: a null pointer with length 0, and nothing else either. */
static void no_text(void) {
    memset(&text, 0, sizeof text);
    text.answer[1] = STAR_BAD_TEXT;
    text.said = star_read_imported(text.answer);
    lent_short();
}

static int get(FILE *in, uint8_t *to, size_t len) { return fread(to, 1, len, in) == len; }

/* The next text of the file: 1, 0 at the end, -1 where the file is broken. */
static int next(FILE *in, struct item *i) {
    uint8_t size[4];
    size_t got = fread(size, 1, sizeof size, in);
    if (got == 0) return 0;
    if (got != sizeof size) return -1;
    i->len = (size_t)size[0] | (size_t)size[1] << 8 | (size_t)size[2] << 16 | (size_t)size[3] << 24;
    i->text = malloc(i->len + 1);
    if (!i->text || !get(in, i->text, i->len) || !get(in, i->answer, sizeof i->answer)) return -1;
    i->said = star_read_imported(i->answer);
    if (i->said.m > ROWS || !get(in, i->left, i->said.m) || !get(in, i->right, i->said.m))
        return -1;
    return get(in, i->weight, 4 * i->said.m) ? 1 : -1;
}

static const char *file;
static unsigned long every = 1; /* a part of the texts need not have every refusal */
static size_t deepest;          /* the most sections of a text that was lent */

static size_t sections(const struct item *i) {
    size_t k, count = 0;
    for (k = 0; k + 8 <= i->len; k++) count += !memcmp(i->text + k, "\nSECTION", 8);
    return count;
}

static void each_text(FILE *in) {
    int more, whole = 0;
    for (number = 0; (more = next(in, &text)) == 1; number++) {
        size_t depth = sections(&text);
        if (number % every == 0) {
            every_way();
            if (depth > deepest) deepest = depth;
        }
        if (text.said.kind == STAR_PASSED && text.said.m > 0 && !whole) {
            lent_short();
            whole = 1;
        }
        free(text.text);
    }
    tell(more == 0, "the file of texts is read");
}

static void *whole_test(void *unused) {
    static const unsigned numbers[] = {12, 13, 1, 2, 3, 4, 15, 0};
    FILE *in = file ? fopen(file, "rb") : NULL;
    size_t i;
    tell(in != NULL, "the file of texts is opened");
    if (in) {
        each_text(in);
        fclose(in);
    }
    no_text();
    yards();
    for (i = 0; numbers[i] && every == 1; i++) tell(refused[numbers[i]] > 0, "a refusal of a text");
    tell(lent_done[0] > 0, "a text that is taken");
    tell(every > 1 || deepest >= DEEPEST, "a text of the most sections");
    return unused;
}

int main(int words, char **word) {
    if (words > 1) file = word[1];
    if (words > 2) every = strtoul(word[2], NULL, 10);
    tell(every > 0 && on_small_stack(whole_test, NULL, STACK_TEXT), "a thread of 1,280 KiB");
    return told();
}
