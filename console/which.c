/* The command which: two plans over one table, each in a file of its own, and which of them costs
   less. */
#include <string.h>

#include "commands.h"
#include "faults.h"
#include "input.h"
#include "json.h"
#include "refusal.h"
#include "status.h"
#include "usage.h"
#include "verdict.h"

/* Whether two tables mean the same junction: by its name where it has one. */
static int same_junction(const struct table *one, uint8_t v, const struct table *other, uint8_t w) {
    if (v > one->names && w > other->names) return v == w;
    return v <= one->names && table_named(other, one->name[v - 1]) == w;
}

/* Whether two tables have the same trench i, its ends in either direction. What stands in a struck
   one does not matter. */
static int same_trench(const struct table *one, const struct table *other, size_t i) {
    size_t k = i - 1;
    uint8_t left = other->left[k], right = other->right[k];
    if (one->struck[k] || other->struck[k]) return one->struck[k] && other->struck[k];
    if (memcmp(one->weight + PRICE_BYTES * k, other->weight + PRICE_BYTES * k, PRICE_BYTES) != 0)
        return 0;
    return (same_junction(one, one->left[k], other, left) &&
            same_junction(one, one->right[k], other, right)) ||
           (same_junction(one, one->left[k], other, right) &&
            same_junction(one, one->right[k], other, left));
}

/* 'FILE:LINE: trench 4 (1-4, price 4)'. */
static void say_line(struct message *to, const struct table *t, size_t i) {
    say_place(to, t->file, t->row[i - 1].line);
    if (t->struck[i - 1]) say(to, "trench %zu is struck", i);
    else say_trench(to, t, i);
}

/* 'FILE:LINE: 5 junctions'. */
static void say_junctions(struct message *to, const struct table *t) {
    say_place(to, t->file, t->count.line);
    say_count(to, t->n, "junction", "junctions");
}

/* 'FILE: 5 trenches'. */
static void say_trenches(struct message *to, const struct table *t) {
    say_place(to, t->file, 0);
    say_count(to, t->m, "trench", "trenches");
}

/* Says where the tables differ in more than their marks; 0 if they do not. */
static int differ(struct message *to, const struct table *first, const struct table *second) {
    void (*say_size)(struct message *, const struct table *) =
        first->m == second->m ? say_junctions : say_trenches;
    size_t i, m = first->m < second->m ? first->m : second->m;
    for (i = 1; i <= m; i++)
        if (!same_trench(first, second, i)) {
            say(to, "The two tables are not the same:\n");
            say_line(to, first, i);
            say(to, "\n");
            say_line(to, second, i);
            return 1;
        }
    if (first->m == second->m && first->n == second->n) return 0;
    say(to, "The two tables are not the same:\n");
    say_size(to, first);
    say(to, "\n");
    say_size(to, second);
    return 1;
}

/* Reads the second file as the first was read. */
static int read_second(struct input *in, struct table *second, const char *file, struct output *o) {
    struct message fault = {{0}, 0};
    int status = input_open(in, file, &fault),
        over = status == 0 ? output_spares(o, in->id, "which", 0) : 0;
    if (over != 0) return over;
    if (status == 0 && in->stp) {
        say_place(&fault, in->file, 0);
        say(&fault, "an STP file marks no trench, so there is no plan to compare.");
        status = EXIT_UNREADABLE;
    }
    if (status == 0) status = input_table(in, second, &fault);
    if (status != 0) fault_tell(&fault);
    return status;
}

static void say_standing(struct message *to, const struct table *first, const struct table *second,
                         uint32_t which, int64_t total) {
    const struct table *stands = which == 1 ? first : second;
    int64_t other = table_plan_total(which == 1 ? second : first);
    char figures[3][FIGURES];
    say(to, "The %s plan stands, %.200s: ", which == 1 ? "first" : "second", stands->file);
    if (other == total) say(to, "both cost %s.", amount_figures(figures[0], total));
    else
        say(to, "it costs %s and the %s %s, %s more.", amount_figures(figures[0], total),
            which == 1 ? "second" : "first", amount_figures(figures[1], other),
            amount_figures(figures[2], other - total));
}

static void which_json(FILE *to, const struct table *first, const struct table *second,
                       uint32_t which, const struct options *with) {
    struct json j;
    json_begin(&j, to, with, "told", EXIT_PASSED);
    json_text(&j, "second", second->file);
    json_number(&j, "stands", which);
    json_open(&j, "totals", '[');
    json_number(&j, NULL, table_plan_total(first));
    json_number(&j, NULL, table_plan_total(second));
    json_close(&j, ']');
    json_end(&j);
}

static int compare(const struct table *first, const struct table *second,
                   const struct options *with, struct output *o) {
    struct message words = {{0}, 0};
    struct star_answer a;
    uint32_t which;
    FILE *to;
    if (differ(&words, first, second)) {
        fault_tell(&words);
        return EXIT_UNREADABLE;
    }
    which = table_which(first, second, &a);
    if (which == 0) {
        refusal_words(&words, table_cst(first).kind == STAR_REFUSED ? first : second, a);
        return tell_refused(o, with, &words);
    }
    to = output_open(o);
    if (!to) return EXIT_UNWRITTEN;
    if (with->json) {
        which_json(to, first, second, which, with);
        return EXIT_PASSED;
    }
    say_standing(&words, first, second, which, a.amount);
    fprintf(to, "%s\n", words.text);
    return EXIT_PASSED;
}

int command_which(struct table *t, const struct options *with, struct output *o) {
    static struct table second;
    struct input in;
    int status;
    if (with->count != 1) return misused("a second file with marks follows the file of", "which");
    if (strcmp(t->file, "standard input") == 0 && strcmp(with->words[0], "-") == 0)
        return misused("one of the two files alone is standard input, and both are", "-");
    status = read_second(&in, &second, with->words[0], o);
    if (status == 0) status = compare(t, &second, with, o);
    input_close(&in);
    return status;
}
