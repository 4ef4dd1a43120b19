/* What explain says, as an object. */
#include "explain.h"

#include "refusal.h"
#include "verdict.h"

static const char *const STANDING[STANDINGS] = {"cheaper", "equal", "dearer"};

/* A trench that is left out, and the total that its exchange for the dearest of its detour would
   give. */
static void left_out(struct json *j, const struct table *t, size_t i, const struct detour *d,
                     int64_t total) {
    json_trench_open(j, NULL, t, i);
    json_truth(j, "marked", 0);
    json_numbers(j, "detour", d->row, d->count);
    json_numbers(j, "junctions", d->stop, d->count + 1);
    json_number(j, "sum", d->sum);
    json_trench(j, "dearest", t, d->dearest);
    json_text(j, "standing", STANDING[d->standing]);
    json_number(j, "after", total - table_cost(t, d->dearest) + table_cost(t, i));
    json_close(j, '}');
}

/* A trench of the plan. */
static void marked(struct json *j, const struct table *t, struct paths *p, size_t i) {
    static unsigned instead[STAR_MAX_ROWS];
    unsigned cheapest = 0;
    size_t count = explain_instead(t, p, i, instead, &cheapest);
    json_trench_open(j, NULL, t, i);
    json_truth(j, "marked", 1);
    json_numbers(j, "instead", instead, count);
    if (count > 0) json_trench(j, "cheapest", t, cheapest);
    json_close(j, '}');
}

/* The trenches that are left out, in the order of the words; gives how many are not told. */
static size_t each_left_out(struct json *j, const struct table *t, struct paths *p, int all) {
    static struct detour d;
    int64_t total = table_plan_total(t);
    size_t shown = 0, hidden = 0, i;
    int standing;
    for (standing = CHEAPER; standing < STANDINGS; standing++)
        for (i = table_next(t, 0); i <= t->m; i = table_next(t, i)) {
            if (t->mark[i - 1] == 1 || !detour_of(&d, p, t, i) || (int)d.standing != standing)
                continue;
            if (!all && shown == EXPLAINED) hidden++;
            else {
                left_out(j, t, i, &d, total);
                shown++;
            }
        }
    return hidden;
}

static void rows(struct json *j, const struct table *t, size_t trench, int all) {
    static struct paths p;
    static struct detour d;
    size_t hidden = 0;
    p.from = 0;
    json_open(j, "rows", '[');
    if (trench == 0) hidden = each_left_out(j, t, &p, all);
    else if (t->mark[trench - 1] == 1) marked(j, t, &p, trench);
    else if (detour_of(&d, &p, t, trench)) left_out(j, t, trench, &d, table_plan_total(t));
    json_close(j, ']');
    json_number(j, "hidden", (int64_t)hidden);
}

void explain_json(FILE *to, const struct table *t, struct star_answer a, size_t trench,
                  const struct options *with, int status) {
    struct json j;
    json_begin(&j, to, with, verdict_name(a), status);
    verdict_json(&j, t, a);
    if (a.kind != STAR_REFUSED) rows(&j, t, trench, with->all);
    else if (trench > 0) json_truth(&j, "looked_at", 0);
    json_end(&j);
}
