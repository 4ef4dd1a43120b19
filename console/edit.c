/* Writes a changed table file. */
#define _POSIX_C_SOURCE 200809L

#include "edit.h"

#include <inttypes.h>
#include <stdlib.h>
#include <string.h>

#include "faults.h"
#include "fields.h"
#include "refusal.h"
#include "status.h"

static void copy(FILE *to, const char *from, const char *end) {
    fwrite(from, 1, (size_t)(end - from), to);
}

/* A line of which one piece is replaced. */
static void replaced(FILE *to, struct span piece, const char *by, const char *from,
                     const char *end) {
    copy(to, from, piece.at);
    fputs(by, to);
    copy(to, piece.at + piece.len, end);
}

/* The line of trench i, which is in use, with the mark that the table has; the line as it stands
   where it says the same. */
static void marked(FILE *to, const struct table *t, size_t i, const char *from, const char *end) {
    struct fields f = fields_of(t->row[i - 1].text);
    const char *mark = t->mark[i - 1] ? "1" : "0", *after = f.whole[2].at + f.whole[2].len;
    if (t->filed[i - 1] == t->mark[i - 1]) copy(to, from, end);
    else if (f.kept > 3) replaced(to, f.bare[3], mark, from, end);
    else {
        copy(to, from, after);
        fprintf(to, "%c%s", f.by, mark);
        copy(to, after, end);
    }
}

/* The same with the price that the table has. */
static void priced(FILE *to, const struct table *t, size_t i, const char *from, const char *end) {
    struct span price = fields_of(t->row[i - 1].text).bare[2];
    uint8_t old[PRICE_BYTES];
    char figures[FIGURES];
    if (price_read(price, old) && memcmp(old, t->weight + PRICE_BYTES * (i - 1), PRICE_BYTES) == 0)
        copy(to, from, end);
    else replaced(to, price, table_price(figures, t, i), from, end);
}

/* How the file's first line ends: new lines end so too. */
static struct span line_end(struct span text) {
    struct span line, end = {"\n", 1};
    if (text_line(&text, &line) && text.at > line.at + line.len) {
        end.at = line.at + line.len;
        end.len = (size_t)(text.at - end.at);
    }
    return end;
}

static void end_line(FILE *to, const struct table *t) {
    struct span end = line_end(t->text);
    copy(to, end.at, end.at + end.len);
}

/* What parts the fields of the file's last trench: those of new lines too, where their names allow
   it. */
static char own_part(const struct table *t) {
    return t->m > 0 ? fields_of(t->row[t->m - 1].text).by : ' ';
}

static void new_line(FILE *to, const struct table *t, const struct entered *new) {
    char by = fields_part(new->end[0], new->end[1], own_part(t)), figures[FIGURES];
    int k;
    if (by == 0) by = ';'; /* no line can have such a name: it is refused when it is read */
    for (k = 0; k < 2; k++) {
        copy(to, new->end[k].at, new->end[k].at + new->end[k].len);
        putc(by, to);
    }
    fprintf(to, "%s%c0", price_figures(figures, new->price), by);
    end_line(to, t);
}

size_t edit_lost(const struct table *t, const struct edit *e, uint8_t lost[STAR_MAX_NAMES]) {
    uint8_t named[STAR_MAX_JUNCTIONS + 1] = {0};
    size_t i, count = 0;
    for (i = 1; i <= t->m; i++)
        if (!(e->merge && t->struck[i - 1]) && i != e->instead)
            named[t->left[i - 1]] = named[t->right[i - 1]] = 1;
    for (i = 0; e->added && i < 2; i++) named[table_named(t, e->added->end[i])] = 1;
    for (i = 0; i < t->names; i++) {
        lost[i] = !named[i + 1];
        count += lost[i];
    }
    return count;
}

/* Whether a line 'junctions N' is to be written: struck lines go, and none says it yet. Of a file
   with names only where a name goes with them. */
static int counts(const struct table *t, const struct edit *e) {
    uint8_t lost[STAR_MAX_NAMES];
    if (!(e->merge || e->instead > 0) || t->strikes == 0 || t->told || e->n == 0) return 0;
    return t->names == 0 || edit_lost(t, e, lost) > 0;
}

/* The line 'junctions N': N stands as it does in the file, unless a new trench names a larger
   junction. */
static void junctions(FILE *to, const struct table *t, uint32_t n) {
    fprintf(to, "junctions%c", own_part(t));
    if (n > t->n || t->names > 0) fprintf(to, "%" PRIu32, n);
    else copy(to, t->count.text.at, t->count.text.at + t->count.text.len);
    end_line(to, t);
}

/* The line of trench i, with its end. */
static void trench(FILE *to, const struct table *t, enum change change, size_t i, const char *from,
                   const char *end) {
    struct span own = t->row[i - 1].text;
    struct fields f = fields_of(own);
    switch (change) {
    case CHANGE_STRUCK:
        copy(to, from, own.at);
        fprintf(to, "struck%c", f.by);
        copy(to, own.at, end);
        break;
    case CHANGE_UNSTRUCK:
        copy(to, from, own.at);
        copy(to, f.whole[1].at, end);
        break;
    case CHANGE_MARK: marked(to, t, i, from, end); break;
    case CHANGE_PRICE: priced(to, t, i, from, end); break;
    default: copy(to, from, end);
    }
}

/* One line of the file, with its end: that of trench i, or another one where i is 0. */
static void line(FILE *to, const struct table *t, const struct edit *e, size_t i, const char *from,
                 const char *end) {
    if (i == 0) copy(to, from, end);
    else if (i == e->instead) new_line(to, t, e->added);
    else if (!e->merge || !t->struck[i - 1]) trench(to, t, e->change[i - 1], i, from, end);
}

static void lines(FILE *to, const struct table *t, const struct edit *e) {
    struct span rest = t->text, own;
    size_t number = 0, i = 1;
    char last = '\n';
    copy(to, t->text.at - t->order_mark, t->text.at);
    if (counts(t, e)) junctions(to, t, e->n);
    while (text_line(&rest, &own)) {
        int trench = i <= t->m && t->row[i - 1].line == ++number;
        line(to, t, e, trench ? i : 0, own.at, rest.at);
        if (trench) i++;
        last = rest.at[-1];
    }
    if (!e->added || e->instead > 0) return;
    if (last != '\n' && last != '\r') end_line(to, t);
    new_line(to, t, e->added);
}

/* ---- The changed file, read before it is written ---- */

/* What a changed file is: its bytes, to be freed, and its table. */
struct changed {
    char *bytes;
    size_t len;
    struct table table;
};

/* Puts the changed file together and reads it; says why it is not read. */
static int changed(struct changed *c, const struct table *t, const struct edit *e,
                   struct message *words) {
    FILE *to;
    int done;
    c->bytes = NULL;
    c->len = 0;
    to = open_memstream(&c->bytes, &c->len);
    if (to) lines(to, t, e);
    done = to && !ferror(to);
    if (to && fclose(to) != 0) done = 0;
    memset(&c->table, 0, sizeof c->table);
    if (!done) {
        say(words, "there is no room to look at the changed file");
        return 0;
    }
    c->table.file = t->file;
    c->table.text.at = c->bytes + t->order_mark;
    c->table.text.len = c->len - t->order_mark;
    c->table.order_mark = t->order_mark;
    return table_read(&c->table, words) == 0;
}

static int same_span(struct span a, struct span b) {
    return a.len == b.len && memcmp(a.at, b.at, a.len) == 0;
}

/* Whether a junction of the changed file is that of the file before, or the one that is meant. */
static int same_end(const struct table *after, uint8_t v, const struct table *t, uint8_t old) {
    if (t->names == 0 || old > t->names) return v == old;
    return v <= after->names && same_span(after->name[v - 1], t->name[old - 1]);
}

static int meant_end(const struct table *after, uint8_t v, struct span end) {
    uint32_t number = 0;
    if (v <= after->names) return same_span(after->name[v - 1], end);
    return text_number(end, &number) && number == v;
}

/* Whether trench k of the changed file is trench i of the table as it is now. */
static int same_trench(const struct table *after, size_t k, const struct table *t, size_t i,
                       enum change change) {
    int struck = change == CHANGE_UNSTRUCK ? 0 : t->struck[i - 1];
    return same_end(after, after->left[k - 1], t, t->left[i - 1]) &&
           same_end(after, after->right[k - 1], t, t->right[i - 1]) &&
           table_cost(after, k) == table_cost(t, i) && after->struck[k - 1] == struck &&
           (struck || change == CHANGE_UNSTRUCK || after->mark[k - 1] == t->mark[i - 1]);
}

static int is_new(const struct table *after, size_t k, const struct entered *new) {
    return meant_end(after, after->left[k - 1], new->end[0]) &&
           meant_end(after, after->right[k - 1], new->end[1]) && !after->struck[k - 1] &&
           table_cost(after, k) == star_get_price(new->price, 0) && after->mark[k - 1] == 0;
}

/* Whether the changed file has the table that is meant: each trench in its order, with its names,
   price and mark, and no other. */
static int as_meant(const struct table *after, const struct table *t, const struct edit *e) {
    size_t i, k = 0, more = e->added && e->instead == 0;
    for (i = 1; i <= t->m; i++) {
        int new = i == e->instead;
        if (!new && e->merge && t->struck[i - 1]) continue;
        if (++k > after->m) return 0;
        if (new ? !is_new(after, k, e->added) : !same_trench(after, k, t, i, e->change[i - 1]))
            return 0;
    }
    return after->m == k + more && after->n >= t->n && (!more || is_new(after, k + 1, e->added));
}

static struct changed after;

int edit_write(struct output *o, const struct table *t, const struct edit *e) {
    struct message words = {{0}, 0};
    FILE *to = NULL;
    int status = EXIT_UNWRITTEN;
    if (changed(&after, t, e, &words) && as_meant(&after.table, t, e)) to = output_open(o);
    else {
        if (words.len > 0) say(&words, "\n");
        say(&words, "star: the changed file would not be read as it is meant; nothing is written");
        fault_tell(&words);
    }
    if (to) fwrite(after.bytes, 1, after.len, to);
    if (to && output_close(o)) status = EXIT_PASSED;
    free(after.bytes);
    return status;
}

int edit_marks(struct output *o, const struct table *t) {
    static struct edit marks;
    struct message fault = {{0}, 0};
    FILE *to;
    size_t i;
    for (i = table_next(t, 0); i <= t->m; i = table_next(t, i)) marks.change[i - 1] = CHANGE_MARK;
    if (!t->stp) return edit_write(o, t, &marks);
    to = output_open(o);
    if (!to) return EXIT_UNWRITTEN;
    if (table_write(to, t, ' ', &fault)) return EXIT_PASSED;
    fault_tell(&fault);
    return EXIT_UNWRITTEN;
}

int edit_refused(const struct table *t, const struct edit *e, struct message *words,
                 struct message *notes) {
    struct star_answer a;
    if (changed(&after, t, e, words)) {
        a = table_cst(&after.table);
        if (a.kind == STAR_REFUSED && !refusal_of_plan(a)) refusal_words(words, &after.table, a);
        if (after.table.n > t->n) refusal_unnamed(notes, &after.table);
    }
    free(after.bytes);
    return words->len > 0;
}
