/* Says what is wrong, and where in the file it stands. A number without words of its own here gets
   those of star_refusal_text. */
#include "refusal.h"

#include <inttypes.h>
#include <string.h>

static struct refusal last;

struct refusal refusal_last(void) {
    return last;
}

void refusal_opens(struct message *to, unsigned number, const char *file, size_t line) {
    last.number = number;
    last.place = 0;
    last.line = line;
    say(to, "Refused (%u): ", number);
    say_place(to, file, line);
}

void refusal_of_end(struct message *to, size_t trench, const struct span ends[2], uint32_t n) {
    uint32_t end;
    int i;
    for (i = 0; i < 2; i++)
        if (!text_number(ends[i], &end) || end < 1 || end > n) {
            say(to, "trench %zu ends at junction ", trench);
            say_word(to, ends[i]);
            say(to, "; junctions are numbered from 1 to %" PRIu32 ".", n);
            return;
        }
    say(to, "trench %zu joins junction %" PRIu32 " to itself.", trench, end);
}

/* The same of a table, whose junctions may have names: a name is above the number of junctions
   where a line says that there are fewer. */
static void bad_end(struct message *to, const struct table *t, size_t trench) {
    uint8_t left = t->left[trench - 1], right = t->right[trench - 1];
    uint8_t end = left < 1 || left > t->n ? left : right;
    if (end >= 1 && end <= t->n) {
        say(to, "trench %zu joins junction ", trench);
        say_junction(to, t, end);
        say(to, " to itself.");
        return;
    }
    say(to, "trench %zu ends at junction ", trench);
    say_junction(to, t, end);
    if (t->names > 0) say(to, ", name %u of the file", (unsigned)end);
    say(to, "; junctions are numbered from 1 to %" PRIu32 ".", t->n);
}

void refusal_of_repeat(struct message *to, size_t trench, size_t earlier) {
    say(to, "trench %zu joins the same junctions as trench %zu.", trench, earlier);
}

/* The first trench between the ends of trench i, in either direction. */
static size_t first_between(const struct table *t, size_t i) {
    unsigned a = t->left[i - 1], b = t->right[i - 1];
    size_t k = table_next(t, 0);
    while (k < i && !(t->left[k - 1] == a && t->right[k - 1] == b) &&
           !(t->left[k - 1] == b && t->right[k - 1] == a))
        k = table_next(t, k);
    return k;
}

/* 'trench 3 ..' with its line where the table has it, and else 'there is no trench 9..; the table
   has 5.' */
static void of_trench(struct message *to, const struct table *t, unsigned number, size_t trench,
                      const char *word, const char *there, const char *purpose) {
    int struck = trench >= 1 && trench <= t->m;
    refusal_opens(to, number, t->file, struck ? t->row[trench - 1].line : 0);
    if (struck) {
        say(to, "trench %zu %s.", trench, there);
        return;
    }
    say(to, "there is no trench ");
    say_given(to, word);
    say(to, "%s; the table has %zu.", purpose, t->m);
}

void refusal_of_strike(struct message *to, const struct table *t, size_t trench, const char *word) {
    of_trench(to, t, STAR_NOT_IN_USE, trench, word, "is struck already", " to strike");
}

void refusal_of_asked(struct message *to, const struct table *t, size_t trench, const char *word) {
    of_trench(to, t, STAR_BAD_SOURCE, trench, word, "is struck, and so left out of everything", "");
}

void refusal_of_asked_junction(struct message *to, const struct table *t, const char *word) {
    struct span asked = {word, strlen(word)};
    size_t v;
    refusal_opens(to, STAR_BAD_SOURCE, t->file, 0);
    say(to, "there is no junction ");
    say_given(to, word);
    say(to, "; the table has %" PRIu32, t->n);
    for (v = 0; v < t->names && !text_alike(t->name[v], asked);) v++;
    if (v < t->names) {
        say(to, ", one of them ");
        say_word(to, t->name[v]);
    }
    say(to, ".");
}

int refusal_has_trench(const struct table *t, size_t trench) {
    return trench >= 1 && trench <= t->m && !t->struck[trench - 1];
}

static void junction_count(struct message *to, const struct table *t) {
    if (t->count.line == 0) say(to, "no junction from 1 on is named");
    else say(to, "the number of junctions is ");
    say_word(to, t->count.text);
    say(to, "; from 1 to %d junctions are taken.", STAR_MAX_JUNCTIONS);
}

static void mark_count(struct message *to, const struct table *t) {
    size_t marks = table_marks(t);
    say_count(to, marks, "trench is marked", "trenches are marked");
    say(to, "; a network of ");
    say_count(to, t->n, "junction has", "junctions has");
    say(to, " exactly %" PRIu32 ".", t->n - 1);
}

/* The smallest junction that no trenches join to junction 1, of a table that the builder refused
   11: all trenches marked, they leave it in another group. 0 if the door refuses. */
static unsigned unreached(const struct table *t) {
    static struct table all;
    static uint8_t smallest[STAR_MAX_JUNCTIONS], on[STAR_MAX_ROWS];
    unsigned v;
    all = *t;
    memset(all.mark, 1, sizeof all.mark);
    if (table_groups(&all, smallest, on).kind != STAR_PASSED) return 0;
    for (v = 2; v <= t->n; v++)
        if (smallest[v - 1] != 1) return v;
    return 0;
}

static void no_network(struct message *to, const struct table *t) {
    unsigned v = unreached(t);
    say(to, "no set of trenches reaches every junction");
    if (v > 0) {
        say(to, ": junction ");
        say_junction(to, t, v);
        say(to, " cannot be reached from junction ");
        say_junction(to, t, 1);
    }
    say(to, ".");
}

/* The junctions that no trench names, as runs: '3', '5 to 8'. At most so many runs are told. */
enum { RUNS = 10 };

void refusal_unnamed(struct message *to, const struct table *t) {
    uint32_t first = table_unnamed(t, 1), last;
    int runs = 0;
    if (first == 0) return;
    say(to, "No trench%s names junction%s ", t->strikes > 0 ? " in use" : "",
        table_unnamed(t, first + 1) > 0 ? "s" : "");
    for (; first > 0 && runs < RUNS; first = table_unnamed(t, last + 1), runs++) {
        last = first;
        while (table_unnamed(t, last + 1) == last + 1 && last >= t->names) last++;
        if (runs > 0) say(to, ", ");
        say_junction(to, t, first);
        if (last > first) say(to, " to %" PRIu32, last);
    }
    if (first > 0) say(to, " and others");
    say(to, ", and junctions are numbered from 1 to %" PRIu32, t->n);
    if (t->count.line > 0) say(to, " (line %zu)", t->count.line);
    say(to, ".");
}

void refusal_words(struct message *to, const struct table *t, struct star_answer a) {
    struct place none = {0, {NULL, 0}};
    int of_trench = a.number == STAR_BAD_END || a.number == STAR_REPEATED_ROW;
    struct place at = of_trench && a.out >= 1 && a.out <= t->m ? t->row[a.out - 1] : none;
    refusal_opens(to, a.number, t->file,
                  a.number == STAR_BAD_JUNCTION_COUNT ? t->count.line : at.line);
    last.place = a.out;
    switch (a.number) {
    case STAR_BAD_JUNCTION_COUNT: junction_count(to, t); break;
    case STAR_BAD_END: bad_end(to, t, a.out); break;
    case STAR_REPEATED_ROW: refusal_of_repeat(to, a.out, first_between(t, a.out)); break;
    case STAR_BAD_MARK_COUNT: mark_count(to, t); break;
    case STAR_NOT_JOINED:
        say(to, "the marked trenches do not reach junction ");
        say_junction(to, t, a.out);
        say(to, " from junction ");
        say_junction(to, t, 1);
        say(to, ".");
        break;
    case STAR_NO_NETWORK: no_network(to, t); break;
    case STAR_TABLE_FULL:
        say(to, "all %d trenches are in use; strike one before another is added.", STAR_MAX_ROWS);
        break;
    default: say(to, "%s (place %u).", star_refusal_text(a.number), a.out);
    }
    if ((refusal_of_plan(a) || a.number == STAR_NO_NETWORK) && table_unnamed(t, 1) > 0) {
        say(to, " ");
        refusal_unnamed(to, t);
    }
    if (t->strikes > 0 && (refusal_of_plan(a) || a.number == STAR_NO_NETWORK)) {
        say(to, " ");
        say_count(to, t->strikes, "struck trench is left out.", "struck trenches are left out.");
    }
}

int refusal_of_plan(struct star_answer a) {
    return a.kind == STAR_REFUSED &&
           (a.number == STAR_BAD_MARK_COUNT || a.number == STAR_NOT_JOINED);
}
