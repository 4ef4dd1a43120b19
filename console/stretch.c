/* The command stretch: the way between two junctions over the plan's trenches, and its dearest one.
   Where the plan is a cheapest network no other route has a cheaper dearest trench: that is a
   theorem about every plan that star_cst passes, so that no route is searched here. */
#include "commands.h"
#include "detour.h"
#include "refusal.h"
#include "status.h"
#include "usage.h"
#include "verdict.h"

/* The two junctions that the words name. */
static int ends_named(const struct table *t, const struct options *with, uint32_t end[2]) {
    int status;
    if (with->count != 2) return misused("two junctions follow the file of", "stretch");
    status = junction_asked(t, with->words[0], &end[0]);
    if (status == 0) status = junction_asked(t, with->words[1], &end[1]);
    if (status != 0) return status;
    return end[0] == end[1] && end[0] < UINT32_MAX
               ? misused("a stretch joins two different junctions, and both are", with->words[0])
               : 0;
}

/* The word that names no junction of the table; NULL where both do. */
static const char *not_there(const struct table *t, const uint32_t end[2], char **words) {
    int i;
    for (i = 0; i < 2; i++)
        if (end[i] < 1 || end[i] > t->n) return words[i];
    return NULL;
}

/* The other trenches of the way that cost as much as its dearest; gives their number. */
static size_t as_dear(const struct table *t, const struct detour *d,
                      unsigned row[STAR_MAX_JUNCTIONS]) {
    size_t count = 0, k;
    for (k = 0; k < d->count; k++)
        if (d->row[k] != d->dearest && table_cost(t, d->row[k]) == table_cost(t, d->dearest))
            row[count++] = d->row[k];
    return count;
}

static void say_as_dear(struct message *to, const struct table *t, const struct detour *d) {
    unsigned row[STAR_MAX_JUNCTIONS];
    size_t count = as_dear(t, d, row);
    if (count > 0) {
        say(to, "; ");
        detour_rows(to, row, count);
        say(to, count == 1 ? " is as dear" : " are as dear");
    } else if (d->count > 1) say(to, "; no other of its trenches is as dear");
    say(to, ".");
}

/* The trenches in order, a line each, their sum, and the dearest of them. */
static void list(FILE *to, const struct table *t, const struct detour *d) {
    struct message words = {{0}, 0};
    char price[FIGURES], sum[FIGURES];
    size_t k;
    say(&words, "From junction ");
    say_junction(&words, t, d->stop[0]);
    say(&words, " to junction ");
    say_junction(&words, t, d->stop[d->count]);
    say(&words, " the plan has ");
    say_count(&words, d->count, "trench:\n", "trenches:\n");
    fputs(words.text, to);
    for (k = 0; k < d->count; k++) {
        words.len = 0;
        detour_stops(&words, t, d->stop + k, 2);
        fprintf(to, "trench %u: %s, price %s\n", d->row[k], words.text,
                table_price(price, t, d->row[k]));
    }
    words.len = 0;
    say(&words, "The way costs %s in all. Its dearest is trench %u, price %s",
        amount_figures(sum, d->sum), d->dearest, table_price(price, t, d->dearest));
    say_as_dear(&words, t, d);
    fprintf(to, "%s\n", words.text);
}

/* Why nothing is listed: the table, a junction that is not there, or the plan. */
static int refused(struct output *o, const struct options *with, const struct table *t,
                   struct star_answer a, const char *not_there) {
    struct message words = {{0}, 0};
    if (not_there && (a.kind != STAR_REFUSED || refusal_of_plan(a)))
        refusal_of_asked_junction(&words, t, not_there);
    else refusal_words(&words, t, a);
    return tell_refused(o, with, &words);
}

static void stretch_words(FILE *to, const struct table *t, const struct detour *d,
                          struct star_answer a) {
    struct message words = {{0}, 0};
    char price[FIGURES];
    list(to, t, d);
    say_junction(&words, t, d->stop[0]);
    say(&words, " and ");
    say_junction(&words, t, d->stop[d->count]);
    if (a.kind == STAR_PASSED)
        fprintf(to,
                "No route between %s over the table's trenches has a dearest trench cheaper than "
                "%s.\n",
                words.text, table_price(price, t, d->dearest));
    else
        fprintf(to, "The plan is no cheapest network, so nothing is promised of other routes: "
                    "'star check' names an exchange.\n");
}

static void stretch_json(FILE *to, const struct table *t, const struct detour *d,
                         struct star_answer a, const struct options *with, int status) {
    unsigned row[STAR_MAX_JUNCTIONS];
    struct json j;
    size_t k;
    json_begin(&j, to, with, verdict_name(a), status);
    json_numbers(&j, "junctions", d->stop, d->count + 1);
    json_open(&j, "rows", '[');
    for (k = 0; k < d->count; k++) json_trench(&j, NULL, t, d->row[k]);
    json_close(&j, ']');
    json_number(&j, "sum", d->sum);
    json_trench(&j, "dearest", t, d->dearest);
    json_numbers(&j, "as_dear", row, as_dear(t, d, row));
    json_end(&j);
}

int command_stretch(struct table *t, const struct options *with, struct output *o) {
    static struct paths p;
    static struct detour d;
    struct star_answer a;
    const char *absent;
    uint32_t end[2];
    int status = ends_named(t, with, end);
    FILE *to;
    if (status != 0) return status;
    a = table_cst(t);
    absent = not_there(t, end, with->words);
    if (a.kind == STAR_REFUSED || absent || !way_between(&d, &p, t, end[0], end[1]))
        return refused(o, with, t, a, absent);
    status = a.kind == STAR_PASSED ? EXIT_PASSED : EXIT_LIGHTER;
    to = output_open(o);
    if (!to) return EXIT_UNWRITTEN;
    if (with->json) stretch_json(to, t, &d, a, with, status);
    else stretch_words(to, t, &d, a);
    return status;
}
