/* The command explain: why a plan is a network or none, and why each trench that is left out is
   held against one trench of its detour alone. */
#include "explain.h"

#include "refusal.h"
#include "ring.h"
#include "status.h"
#include "usage.h"
#include "verdict.h"

static void line(FILE *to, struct message *words) {
    if (words->len > 0) fprintf(to, "%s\n", words->text);
    words->len = 0;
    words->text[0] = '\0';
}

/* One trench that is left out. */
static void left_out(FILE *to, const struct table *t, size_t i, const struct detour *d,
                     int64_t total) {
    struct message words = {{0}, 0};
    char sum[FIGURES], dearest[FIGURES];
    say_trench(&words, t, i);
    say(&words, " is left out. Its detour: ");
    detour_rows(&words, d->row, d->count);
    say(&words, " (");
    detour_stops(&words, t, d->stop, d->count + 1);
    say(&words, ")");
    line(to, &words);
    say(&words, "  sum %s, does not count; dearest %s (trench %u); ", amount_figures(sum, d->sum),
        table_price(dearest, t, d->dearest), d->dearest);
    detour_compared(&words, t, i, d, total);
    line(to, &words);
}

/* The trenches that are left out, those that save money first and those that cost as much next; all
   of them, or the first few. */
static void each_left_out(FILE *to, const struct table *t, struct paths *p, int all) {
    static struct detour d;
    size_t count[STANDINGS] = {0, 0, 0}, shown = 0, hidden = 0, i;
    int64_t total = table_plan_total(t);
    struct message words = {{0}, 0};
    int standing;
    for (standing = CHEAPER; standing < STANDINGS; standing++)
        for (i = table_next(t, 0); i <= t->m; i = table_next(t, i)) {
            if (t->mark[i - 1] == 1 || !detour_of(&d, p, t, i) || (int)d.standing != standing)
                continue;
            if (all || shown < EXPLAINED) {
                shown++;
                left_out(to, t, i, &d, total);
            } else {
                hidden++;
                count[standing]++;
            }
        }
    if (shown == 0) say(&words, "No trench is left out.");
    if (hidden > 0)
        say(&words,
            "%zu more are left out: %zu that save, %zu that cost as much as the dearest of their "
            "detour, %zu that cost more. Name one to have it explained, or say --all.",
            hidden, count[CHEAPER], count[EQUAL], count[DEARER]);
    line(to, &words);
}

size_t explain_instead(const struct table *t, struct paths *p, size_t i,
                       unsigned instead[STAR_MAX_ROWS], unsigned *cheapest) {
    static struct detour d;
    size_t count = 0, k, j;
    *cheapest = 0;
    for (k = table_next(t, 0); k <= t->m; k = table_next(t, k)) {
        if (t->mark[k - 1] == 1 || !detour_of(&d, p, t, k)) continue;
        for (j = 0; j < d.count && d.row[j] != i; j++) continue;
        if (j == d.count) continue;
        instead[count++] = (unsigned)k;
    }
    if (count > 0) *cheapest = p->beside[i - 1];
    return count;
}

/* A trench of the plan: what could come in for it, and the cheapest of that. */
static void marked(FILE *to, const struct table *t, struct paths *p, size_t i) {
    static unsigned instead[STAR_MAX_ROWS];
    struct message words = {{0}, 0};
    unsigned cheapest;
    size_t count = explain_instead(t, p, i, instead, &cheapest);
    char own[FIGURES], least[FIGURES];
    say_trench(&words, t, i);
    if (count == 0) {
        say(&words, " is of the plan, and on no detour: no other trench joins what it joins, so it "
                    "is in every network.");
    } else {
        say(&words, " is of the plan. It is on the detour of ");
        detour_rows(&words, instead, count);
        say(&words, ", which could come in for it;\n  the cheapest of them costs %s (trench %u); ",
            table_price(least, t, cheapest), cheapest);
        table_price(own, t, i);
        if (table_cost(t, i) < table_cost(t, cheapest))
            say(&words, "%s < %s: it stays", own, least);
        else if (table_cost(t, i) == table_cost(t, cheapest))
            say(&words,
                "%s = %s: the exchange gives another network of the same total, no contradiction",
                own, least);
        else say(&words, "%s > %s: the exchange is cheaper", own, least);
    }
    line(to, &words);
}

static void network(FILE *to, const struct table *t, size_t trench, int all) {
    static struct paths p;
    static struct detour d;
    struct message words = {{0}, 0};
    char total[FIGURES];
    p.from = 0;
    if (t->n == 1) {
        say(&words, "One junction needs no trench.");
        line(to, &words);
        return;
    }
    say_count(&words, table_marks(t), "marked trench joins", "marked trenches join");
    say(&words, " all %u junctions, for %s in all.\n", (unsigned)t->n,
        amount_figures(total, table_plan_total(t)));
    say(&words, "A trench that is left out is held against the dearest trench of its detour, the "
                "way around over marked trenches, and against nothing else.");
    line(to, &words);
    if (trench == 0) each_left_out(to, t, &p, all);
    else if (t->mark[trench - 1] == 1) marked(to, t, &p, trench);
    else if (detour_of(&d, &p, t, trench)) left_out(to, t, trench, &d, table_plan_total(t));
}

/* Marks that are no network, or too few or too many for one. */
static void no_network(FILE *to, const struct table *t, int all) {
    struct message words = {{0}, 0};
    ring_count(&words, t);
    line(to, &words);
    if (table_marks(t) > 0) ring_tell(to, t, all);
}

/* The trench that is named, of a table or a plan that is refused. */
static void not_looked_at(FILE *to, size_t trench, struct star_answer a) {
    fprintf(to, "Trench %zu was not looked at: the %s.\n", trench,
            refusal_of_plan(a) ? "marks are no network, so that no trench has a detour"
                               : "table is refused");
}

void explain_limit(struct message *to) {
    say(to,
        "A junction's code is one byte. A byte has 256 codes, 0 to 255, and code 0 is no junction: "
        "%d are left, 1 to %d.",
        STAR_MAX_JUNCTIONS, STAR_MAX_JUNCTIONS);
}

/* The trench that is named; 0 for none. */
static int trench_asked(const struct options *with, uint32_t *trench) {
    *trench = 0;
    if (with->count > 1)
        return misused("one trench is explained, and there is also", with->words[1]);
    return with->count == 1 ? trench_named(with->words[0], trench) : 0;
}

static void explain_words(FILE *to, const struct table *t, struct star_answer a, size_t trench,
                          const struct options *with) {
    struct message words = {{0}, 0};
    if (a.kind != STAR_REFUSED) network(to, t, trench, with->all);
    else if (refusal_of_plan(a)) no_network(to, t, with->all);
    else if (a.number == STAR_BAD_JUNCTION_COUNT) explain_limit(&words);
    line(to, &words);
    if (a.kind == STAR_REFUSED && with->count == 1) not_looked_at(to, trench, a);
    verdict_words(&words, t, a);
    line(to, &words);
    verdict_gap(&words, t, a);
    line(to, &words);
}

int command_explain(struct table *t, const struct options *with, struct output *o) {
    struct star_answer a = table_judged(t);
    struct message words = {{0}, 0};
    uint32_t trench;
    int status = trench_asked(with, &trench);
    FILE *to;
    if (status != 0) return status;
    if ((a.kind != STAR_REFUSED || refusal_of_plan(a)) && with->count == 1 &&
        !refusal_has_trench(t, trench)) {
        refusal_of_asked(&words, t, trench, with->words[0]);
        return tell_refused(o, with, &words);
    }
    status = a.kind == STAR_REFUSED ? EXIT_REFUSED : EXIT_PASSED;
    to = output_open(o);
    if (!to) return EXIT_UNWRITTEN;
    if (with->json) explain_json(to, t, a, trench, with, status);
    else explain_words(to, t, a, trench, with);
    return status;
}
