/* Verdicts in words. */
#include "verdict.h"

#include "refusal.h"
#include "ring.h"

void say_trench(struct message *to, const struct table *t, size_t i) {
    char price[FIGURES];
    say(to, "trench %zu (", i);
    say_ends(to, t, i);
    say(to, ", price %s)", table_price(price, t, i));
}

struct totals verdict_totals(const struct table *t, struct star_answer a) {
    static struct table other;
    struct totals totals;
    totals.plan = table_plan_total(t);
    other = *t;
    if (a.kind == STAR_LIGHTER) {
        other.mark[a.out - 1] = 0;
        other.mark[a.in - 1] = 1;
    }
    totals.after = table_plan_total(&other);
    totals.least = table_best(t).least;
    return totals;
}

static void say_passed(struct message *to, const struct table *t, struct star_answer a) {
    struct star_answer other;
    char total[FIGURES];
    say(to,
        "Passed: the marked trenches reach every junction, and no set that does is cheaper. Total "
        "%s.\n",
        amount_figures(total, a.amount));
    if (a.only) {
        say(to, "It is the only cheapest network.");
        return;
    }
    other = table_other(t);
    say(to, "Another network costs the same: take out ");
    say_trench(to, t, other.out);
    say(to, ", put in ");
    say_trench(to, t, other.in);
    say(to, ".");
}

static void say_lighter(struct message *to, const struct table *t, struct star_answer a) {
    struct totals totals = verdict_totals(t, a);
    char figures[4][FIGURES];
    say(to, "A cheaper set exists, for %s less:\n  take out ",
        amount_figures(figures[0], a.amount));
    say_trench(to, t, a.out);
    say(to, "\n  put in   ");
    say_trench(to, t, a.in);
    say(to, "\nThe plan's total is %s, and %s after this exchange. The least total is %s.",
        amount_figures(figures[1], totals.plan), amount_figures(figures[2], totals.after),
        amount_figures(figures[3], totals.least));
}

void verdict_words(struct message *to, const struct table *t, struct star_answer a) {
    if (a.kind == STAR_PASSED) say_passed(to, t, a);
    else if (a.kind == STAR_LIGHTER) say_lighter(to, t, a);
    else refusal_words(to, t, a);
}

void verdict_gap(struct message *to, const struct table *t, struct star_answer a) {
    struct totals totals;
    char most[FIGURES];
    if (a.kind != STAR_LIGHTER) return;
    totals = verdict_totals(t, a);
    say(to, "At most %s is saved", amount_figures(most, totals.plan - totals.least));
    if (totals.after == totals.least) say(to, ", and this exchange saves all of it.");
    else say(to, "; no exchange of one trench for another saves more than this one.");
}

void verdict_next(struct message *to, const struct table *t, struct star_answer a) {
    static struct table copy;
    copy = *t;
    if (a.kind != STAR_LIGHTER && !refusal_of_plan(a)) return;
    say(to, "'star explain' says why.\n");
    if (table_mst1(&copy).kind == STAR_PASSED)
        say(to, "'star mend' writes the file with its plan made a cheapest network.");
    else
        say(to, "No marks would do: 'star build' names a junction that the table's trenches do not "
                "reach.");
}

const char *verdict_name(struct star_answer a) {
    if (a.kind == STAR_PASSED) return "passed";
    return a.kind == STAR_LIGHTER ? "cheaper" : "refused";
}

static void json_passed(struct json *j, const struct table *t, struct star_answer a) {
    struct star_answer other;
    json_number(j, "total", a.amount);
    json_truth(j, "only", a.only == 1);
    if (a.only) return;
    other = table_other(t);
    json_trench(j, "out", t, other.out);
    json_trench(j, "in", t, other.in);
}

static void json_lighter(struct json *j, const struct table *t, struct star_answer a) {
    struct totals totals = verdict_totals(t, a);
    json_number(j, "saving", a.amount);
    json_trench(j, "out", t, a.out);
    json_trench(j, "in", t, a.in);
    json_number(j, "total", totals.plan);
    json_number(j, "after", totals.after);
    json_number(j, "least", totals.least);
    json_number(j, "most", totals.plan - totals.least);
}

void verdict_json(struct json *j, const struct table *t, struct star_answer a) {
    struct message words = {{0}, 0};
    if (a.kind == STAR_PASSED) json_passed(j, t, a);
    else if (a.kind == STAR_LIGHTER) json_lighter(j, t, a);
    else {
        refusal_words(&words, t, a);
        json_refusal(j, words.text);
        if (refusal_of_plan(a) && table_marks(t) > 0) ring_json(j, t);
    }
}
