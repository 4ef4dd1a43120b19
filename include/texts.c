/* Tables with all that belongs to them, from and to texts. A planner's table is read by
   star_read_table and an STP text by star_import; a table's text is written here. */
#include <inttypes.h>
#include <stdio.h>
#include <string.h>

#include "lent.h"
#include "reading.h"

/* An STP text. */
static struct star_imported import(struct star_table *t, const char *text, size_t len) {
    uint8_t answer[STAR_ANSWER_BYTES];
    struct star_imported i;
    size_t row;
    star_import((const uint8_t *)text, len, COLUMNS(t), ANSWER(answer));
    i = star_read_imported(answer);
    t->n = i.n;
    for (row = 1; row <= i.m; row++) star_set_in_use(t->in_use, row, 1);
    return i;
}

/* A planner's table. */
static struct star_imported read_file(struct star_table *t, const char *text, size_t len) {
    struct reading r;
    struct star_imported i;
    reading_of(&r, text, len);
    i.kind = r.file.kind;
    i.number = r.file.number;
    i.n = t->n = r.file.n;
    i.m = r.file.m;
    i.place = r.file.place;
    memcpy(t->in_use, r.in_use, sizeof t->in_use);
    memcpy(t->left, r.left, sizeof t->left);
    memcpy(t->right, r.right, sizeof t->right);
    memcpy(t->weight, r.weight, sizeof t->weight);
    memcpy(t->mark, r.mark, sizeof t->mark);
    return i;
}

struct star_imported star_table_read(struct star_table *t, const char *text, size_t len) {
    size_t skipped = reading_order_mark(text, len);
    struct star_table read;
    struct star_imported i;
    int stp = reading_is_stp(text + skipped, len - skipped);
    star_table_init(&read, 0);
    i = stp ? import(&read, text + skipped, len - skipped) : read_file(&read, text, len);
    if (i.kind == STAR_PASSED) *t = read;
    else if (stp && i.number == STAR_BAD_TEXT) i.place += skipped;
    return i;
}

/* The last row that is written: one in use, or one that has a left end and so was struck. */
static size_t last_row(const struct star_table *t) {
    size_t row = STAR_MAX_ROWS;
    while (row > 0 && !star_in_use(t->in_use, row) && t->left[row - 1] == 0) row--;
    return row;
}

/* A row's line. Its length is at most 31. */
static size_t line_of(const struct star_table *t, size_t row, char *line, size_t size) {
    int used = star_in_use(t->in_use, row);
    int len = snprintf(line, size, "%s%u %u %" PRId32 " %u\n", used ? "" : "struck ",
                       t->left[row - 1], t->right[row - 1], star_get_price(t->weight, row - 1),
                       used ? t->mark[row - 1] : 0U);
    return (size_t)len;
}

size_t star_table_write(const struct star_table *t, char *text, size_t size) {
    char whole[STAR_MAX_TABLE_TEXT];
    size_t len = (size_t)snprintf(whole, sizeof whole, "junctions %" PRIu32 "\n", t->n);
    size_t row, last = last_row(t);
    for (row = 1; row <= last; row++) len += line_of(t, row, whole + len, sizeof whole - len);
    if (len < size) memcpy(text, whole, len + 1);
    return len;
}
