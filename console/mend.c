/* The command mend: the file with its plan made a cheapest network, what changed in the end, and
   each step where it is asked for. The door decides on the steps; the lines of the file follow. */
#include <string.h>

#include "commands.h"
#include "edit.h"
#include "faults.h"
#include "json.h"
#include "refusal.h"
#include "status.h"
#include "verdict.h"

static struct star_record records[RECORDS];

static void say_step(struct message *to, const struct table *t, struct star_record step) {
    char saving[FIGURES];
    if (step.kind == STAR_DROPPED) {
        say(to, "dropped ");
        say_trench(to, t, step.out);
        say(to, ": it closes a ring");
    } else if (step.kind == STAR_ADDED) {
        say(to, "added ");
        say_trench(to, t, step.in);
        say(to, ": it joins what was apart");
    } else {
        say(to, "exchanged ");
        say_trench(to, t, step.out);
        say(to, " for ");
        say_trench(to, t, step.in);
        say(to, ": saves %s",
            amount_figures(saving, table_cost(t, step.out) - table_cost(t, step.in)));
    }
}

/* The trenches whose marks changed from one state to another, a line each. */
static size_t tell_changed(const struct table *t, const uint8_t *before, int marked) {
    size_t i, count = 0;
    for (i = table_next(t, 0); i <= t->m; i = table_next(t, i)) {
        struct message words = {{0}, 0};
        if (before[i - 1] == t->mark[i - 1] || t->mark[i - 1] != marked) continue;
        say_trench(&words, t, i);
        fprintf(stderr, "%s %s\n", marked ? "put in   " : "taken out", words.text);
        count++;
    }
    return count;
}

/* What the marks were before: their number, their cost, and what was said of them. */
struct past {
    uint8_t mark[STAR_MAX_ROWS];
    size_t marks;
    int64_t cost;
    struct star_answer judged;
};

/* The exchange that alone saves most, of a network for which there is more to change. */
static void tell_best(const struct table *t, struct star_answer best) {
    struct message words = {{0}, 0};
    char saving[FIGURES];
    say_trench(&words, t, best.out);
    say(&words, ", put in ");
    say_trench(&words, t, best.in);
    fprintf(stderr, "One exchange alone saves %s at most: take out %s.\n",
            amount_figures(saving, best.amount), words.text);
}

/* What changed in the end, and what the marked trenches cost before and after. */
static void tell(const struct table *t, const struct past *past) {
    char before[FIGURES], now[FIGURES];
    size_t changed = tell_changed(t, past->mark, 0);
    changed += tell_changed(t, past->mark, 1);
    amount_figures(before, past->cost);
    amount_figures(now, table_plan_total(t));
    if (changed == 0)
        fprintf(stderr, "There is nothing to mend: the plan is a cheapest network. Total %s.\n",
                now);
    else if (past->judged.kind != STAR_REFUSED)
        fprintf(stderr, "The plan's total was %s and is %s now: no network is cheaper.\n", before,
                now);
    else if (past->marks == 0)
        fprintf(stderr,
                "No trench was marked. The plan's total is %s now: no network is cheaper.\n", now);
    else
        fprintf(stderr,
                "The marked trenches were no network, and cost %s. The plan's "
                "total is %s now: no network is cheaper.\n",
                before, now);
    if (changed > 2 && past->judged.kind == STAR_LIGHTER) tell_best(t, past->judged);
}

static void tell_steps(const struct table *t, size_t steps) {
    size_t i;
    for (i = 0; i < steps; i++) {
        struct message words = {{0}, 0};
        say_step(&words, t, records[i]);
        fprintf(stderr, "%s\n", words.text);
    }
}

/* The trenches whose marks changed to one state, as a list. */
static void json_changed(struct json *j, const char *key, const struct table *t,
                         const uint8_t *before, int marked) {
    static uint8_t changed[STAR_MAX_ROWS];
    size_t i;
    for (i = 1; i <= t->m; i++)
        changed[i - 1] = (uint8_t)(before[i - 1] != t->mark[i - 1] && t->mark[i - 1] == marked);
    json_rows(j, key, t, changed, 1, t->m);
}

static void json_steps(struct json *j, const struct table *t, size_t steps) {
    static const char *const names[] = {
        [STAR_DROPPED] = "dropped", [STAR_ADDED] = "added", [STAR_EXCHANGED] = "exchanged"};
    size_t i;
    json_open(j, "steps", '[');
    for (i = 0; i < steps; i++) {
        json_open(j, NULL, '{');
        json_text(j, "step", names[records[i].kind]);
        if (records[i].out > 0) json_trench(j, "out", t, records[i].out);
        if (records[i].in > 0) json_trench(j, "in", t, records[i].in);
        json_close(j, '}');
    }
    json_close(j, ']');
}

/* The object goes to standard output, and the file to the output that is named. */
static int mend_json(const struct table *t, const struct past *past, size_t steps,
                     const struct options *with) {
    struct output own;
    struct json j;
    if (!json_beside(&j, &own, with, "mended")) return EXIT_UNWRITTEN;
    json_changed(&j, "out", t, past->mark, 0);
    json_changed(&j, "in", t, past->mark, 1);
    json_open(&j, "marked", '{');
    json_number(&j, "cost", past->cost);
    json_truth(&j, "network", past->judged.kind != STAR_REFUSED);
    json_close(&j, '}');
    json_number(&j, "total", table_plan_total(t));
    if (with->steps) json_steps(&j, t, steps);
    return json_beside_end(&j, &own);
}

int command_mend(struct table *t, const struct options *with, struct output *o) {
    static struct past past;
    struct star_answer a;
    int status;
    memcpy(past.mark, t->mark, sizeof past.mark);
    past.marks = table_marks(t);
    past.cost = table_plan_total(t);
    past.judged = table_judged(t);
    a = table_mend(t, records);
    if (a.kind != STAR_PASSED) {
        struct message words = {{0}, 0};
        refusal_words(&words, t, a);
        fault_tell(&words);
        return EXIT_REFUSED;
    }
    status = edit_marks(o, t);
    if (status != 0) return status;
    if (with->json) return mend_json(t, &past, (size_t)a.amount, with);
    tell(t, &past);
    if (with->steps) tell_steps(t, (size_t)a.amount);
    return EXIT_PASSED;
}
