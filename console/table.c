/* Reads the planner's table through star_read_table, and keeps where in the text each trench
   stands. */
#include "table.h"

#include <inttypes.h>
#include <stdlib.h>
#include <string.h>

#include "fields.h"
#include "refusal.h"
#include "status.h"
#include "wrong.h"

/* The lines that cannot stand which are told. */
enum { TOLD = 20 };

static struct reading r;

/* The line 'junctions N', which the reader has found to be one. */
static void take_count(struct table *t, struct place at) {
    struct fields f = fields_of(at.text);
    if (!text_is(f.bare[0], "JUNCTIONS")) return;
    t->told = 1;
    t->count.line = at.line;
    t->count.text = f.bare[1];
}

/* Where the trenches and the line 'junctions N' stand. */
static void locate(struct table *t) {
    struct span rest = t->text;
    struct place at = {0, {NULL, 0}};
    size_t i = 0;
    while (text_line(&rest, &at.text)) {
        size_t place = (size_t)(at.text.at - t->text.at) + t->order_mark;
        int trench = i < t->m && r.row_at[i] < place + at.text.len;
        at.line++;
        at.text = fields_content(at.text);
        if (trench) t->row[i++] = at;
        else if (at.text.len > 0) take_count(t, at);
    }
}

/* The first trench that names the largest junction, where no line says how many there are. */
static void largest(struct table *t) {
    size_t i;
    for (i = 0; i < t->m && t->left[i] != t->n && t->right[i] != t->n;) i++;
    if (i == t->m) return;
    t->count.line = t->row[i].line;
    t->count.text = fields_of(t->row[i].text).bare[t->struck[i] + (t->left[i] != t->n)];
}

/* Takes what the door has read from the file's bytes. */
static void take(struct table *t, const char *bytes) {
    size_t i;
    t->n = r.file.n;
    t->m = r.file.m;
    t->names = r.file.names;
    memcpy(t->left, r.left, sizeof t->left);
    memcpy(t->right, r.right, sizeof t->right);
    memcpy(t->weight, r.weight, sizeof t->weight);
    memcpy(t->mark, r.mark, sizeof t->mark);
    memcpy(t->filed, r.mark, sizeof t->filed);
    for (i = 0; i < t->m; i++) {
        t->struck[i] = (uint8_t)!star_in_use(r.in_use, i + 1);
        t->strikes += t->struck[i];
    }
    for (i = 0; i < t->names; i++) {
        t->name[i].at = bytes + r.name_from[i];
        t->name[i].len = r.name_to[i] - r.name_from[i];
    }
    locate(t);
    if (!t->told && t->names == 0) largest(t);
}

/* Whether a refusal is about one line, so that what follows it can be read on. */
static int of_line(struct star_file f) {
    return f.kind == STAR_REFUSED && f.number >= STAR_NOT_TRENCH && f.number <= STAR_MIXED_NAMES;
}

static void tell(struct message *fault, const struct table *t, struct span text) {
    size_t line = (size_t)star_line_of((const uint8_t *)text.at, text.len, r.file.place);
    struct star_file f = r.file;
    if (fault->len > 0) say(fault, "\n");
    if (of_line(f)) say_place(fault, t->file, line);
    else refusal_opens(fault, f.number, t->file, line);
    wrong_words(fault, text, f);
}

/* Tells each line that cannot stand, and reads on without it: its bytes are blanks then, so that
   all places stay. */
static int tell_lines(struct table *t, struct span text, struct message *fault) {
    char *left = malloc(text.len);
    struct span rest = {left, text.len}, line;
    size_t told;
    if (!left) {
        tell(fault, t, text);
        return EXIT_UNREADABLE;
    }
    memcpy(left, text.at, text.len);
    for (told = 0; of_line(r.file) && told < TOLD; told++) {
        line = wrong_line(rest, r.file.place);
        tell(fault, t, rest);
        memset(left + (line.at - left), ' ', line.len);
        reading_of(&r, left, text.len);
    }
    if (of_line(r.file)) {
        say(fault, "\n");
        say_place(fault, t->file, 0);
        say(fault, "more lines cannot stand");
    } else if (r.file.kind == STAR_REFUSED) tell(fault, t, rest);
    free(left);
    return EXIT_UNREADABLE;
}

int table_read(struct table *t, struct message *fault) {
    struct span text = {t->text.at - t->order_mark, t->text.len + t->order_mark};
    reading_of(&r, text.at, text.len);
    if (of_line(r.file)) return tell_lines(t, text, fault);
    if (r.file.kind == STAR_PASSED) take(t, text.at);
    else tell(fault, t, text);
    if (r.file.kind == STAR_REFUSED) t->refused = r.file;
    return r.file.kind == STAR_PASSED ? 0 : EXIT_REFUSED;
}

size_t table_next(const struct table *t, size_t i) {
    do i++;
    while (i <= t->m && t->struck[i - 1]);
    return i;
}

uint32_t table_unnamed(const struct table *t, uint32_t from) {
    uint8_t named[STAR_MAX_JUNCTIONS + 1] = {0};
    size_t i;
    for (i = table_next(t, 0); i <= t->m; i = table_next(t, i))
        named[t->left[i - 1]] = named[t->right[i - 1]] = 1;
    while (from <= t->n && from <= STAR_MAX_JUNCTIONS && named[from]) from++;
    return from <= t->n && from <= STAR_MAX_JUNCTIONS ? from : 0;
}

size_t table_used(const struct table *t) { return t->m - t->strikes; }

int64_t table_list(FILE *to, const struct table *t, const uint8_t *mark, size_t from, size_t last) {
    char price[FIGURES];
    int64_t total = 0;
    size_t i;
    for (i = table_next(t, from - 1); i <= last && i <= t->m; i = table_next(t, i))
        if (mark[i - 1] == 1) {
            struct message ends = {{0}, 0};
            say_ends(&ends, t, i);
            fprintf(to, "trench %zu: %s, price %s\n", i, ends.text, table_price(price, t, i));
            total += table_cost(t, i);
        }
    return total;
}

void say_junction(struct message *to, const struct table *t, uint32_t v) {
    if (v >= 1 && v <= t->names) say_word(to, t->name[v - 1]);
    else say(to, "%" PRIu32, v);
}

void say_ends(struct message *to, const struct table *t, size_t i) {
    say_junction(to, t, t->left[i - 1]);
    say(to, t->names > 0 ? " - " : "-");
    say_junction(to, t, t->right[i - 1]);
}

uint32_t table_named(const struct table *t, struct span name) {
    uint32_t v;
    for (v = 1; v <= t->names; v++)
        if (t->name[v - 1].len == name.len && memcmp(t->name[v - 1].at, name.at, name.len) == 0)
            return v;
    return 0;
}

size_t table_marks(const struct table *t) {
    size_t i, marks = 0;
    for (i = 0; i < t->m; i++) marks += t->mark[i] == 1;
    return marks;
}

int64_t table_cost(const struct table *t, size_t i) { return star_get_price(t->weight, i - 1); }

const char *table_price(char figures[FIGURES], const struct table *t, size_t i) {
    return price_figures(figures, t->weight + PRICE_BYTES * (i - 1));
}
