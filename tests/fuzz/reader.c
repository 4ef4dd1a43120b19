/* Everything that reads a planner's bytes, on one text: star_import, star_digs_text, the library's
 * reader of tables and the console's. What they say has to agree; abort() ends a run where it does
 * not. libFuzzer calls it with texts of its own, replay.c with those of the corpus. */
#include <stdio.h>
#include <stdlib.h>
#include <string.h>

#include "reading.h"
#include "star.h"
#include "stp.h"
#include "table.h"

int LLVMFuzzerTestOneInput(const uint8_t *data, size_t size);

enum { FILL = 0xA5, ROWS = STAR_MAX_ROWS };

static void holds(int said, const char *what) {
    if (said) return;
    fprintf(stderr, "reader: %s\n", what);
    abort();
}

static int filled(const uint8_t *bytes, size_t from, size_t to) {
    for (; from < to; from++)
        if (bytes[from] != FILL) return 0;
    return 1;
}

/* The columns past the rows that were read, all of them where the text is refused, are as lent. */
static struct star_imported import(const uint8_t *data, size_t size) {
    static uint8_t left[ROWS], right[ROWS], weight[4 * ROWS], mark[ROWS];
    uint8_t answer[STAR_ANSWER_BYTES];
    struct star_imported i;
    memset(left, FILL, sizeof left);
    memset(right, FILL, sizeof right);
    memset(weight, FILL, sizeof weight);
    holds(star_import(data, size, left, ROWS, right, ROWS, weight, 4 * ROWS, answer, 16), "taken");
    i = star_read_imported(answer);
    holds(i.m <= ROWS && filled(left, i.m, ROWS) && filled(right, i.m, ROWS), "rows past m");
    holds(filled(weight, 4 * i.m, 4 * ROWS), "prices past m");
    if (i.kind == STAR_REFUSED) return i;
    star_mst1(i.n, left, i.m, right, i.m, weight, 4 * i.m, mark, i.m, answer, 16);
    holds(answer[0] == STAR_PASSED || answer[1] == STAR_NO_NETWORK, "rows that cannot stand");
    return i;
}

/* The dig list refuses what the import refuses. */
static void digs(const uint8_t *data, size_t size, struct star_imported i) {
    static uint8_t text[STAR_MAX_LIST];
    uint8_t answer[STAR_ANSWER_BYTES];
    struct star_imported d;
    memset(text, FILL, sizeof text);
    holds(star_digs_text(data, size, text, sizeof text, answer, 16), "taken");
    d = star_read_imported(answer);
    if (d.kind == STAR_PASSED) {
        size_t length = (size_t)star_read_answer(answer).amount;
        holds(i.kind == STAR_PASSED && length <= sizeof text, "a list of what is not a table");
        holds(filled(text, length, sizeof text), "bytes behind the list");
        return;
    }
    holds(filled(text, 0, sizeof text), "a list that is refused");
    if (i.kind == STAR_PASSED) holds(d.number == STAR_NO_NETWORK, "a refusal of a table");
    else holds(d.number == i.number && d.place == i.place, "two refusals of one text");
}

/* The rows in use, and what stands in them, are the same. */
static int same_table(const struct star_table *a, const struct star_table *b) {
    size_t row;
    if (a->n != b->n || memcmp(a->in_use, b->in_use, sizeof a->in_use)) return 0;
    for (row = 1; row <= ROWS; row++) {
        if (!star_in_use(a->in_use, row)) continue;
        if (a->left[row - 1] != b->left[row - 1]) return 0;
        if (a->right[row - 1] != b->right[row - 1]) return 0;
        if (star_get_price(a->weight, row - 1) != star_get_price(b->weight, row - 1)) return 0;
        if (a->mark[row - 1] != b->mark[row - 1]) return 0;
    }
    return 1;
}

/* A table that is read is written as a text that gives it again. */
static struct star_imported library(const uint8_t *data, size_t size) {
    static struct star_table table, again;
    static char text[STAR_MAX_TABLE_TEXT];
    struct star_imported i = star_table_read(&table, (const char *)data, size);
    size_t length;
    if (i.kind == STAR_REFUSED) return i;
    star_table_check(&table);
    length = star_table_write(&table, text, sizeof text);
    holds(length < sizeof text, "the room for a table's text");
    if (star_table_read(&again, text, length).kind == STAR_PASSED)
        holds(same_table(&table, &again), "a table read again");
    else holds(0, "a table that is written and not read");
    return i;
}

/* The console's readers take what the library's takes. */
static void console(const uint8_t *data, size_t size, struct star_imported read) {
    static struct table table;
    static struct message fault;
    struct span text;
    int taken;
    size_t mark = reading_order_mark((const char *)data, size);
    text.at = (const char *)data + mark;
    text.len = size - mark;
    memset(&table, 0, sizeof table);
    table.text = text;
    table.order_mark = mark;
    fault.len = 0;
    taken = reading_is_stp(text.at, text.len) ? stp_read(&table, text, &fault)
                                              : table_read(&table, &fault) == 0;
    holds(taken == (read.kind == STAR_PASSED), "taken by the console or the library alone");
}

int LLVMFuzzerTestOneInput(const uint8_t *data, size_t size) {
    struct star_imported i = import(data, size);
    digs(data, size, i);
    console(data, size, library(data, size));
    return 0;
}
