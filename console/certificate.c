/* The certificate of a verdict: of a plan that passes its total, whether it is the only cheapest
   network, and for each trench left out the dearest trench of its detour and the detour; of a plan
   with a cheaper set the exchange and the totals before and after it. tests/certificate.py checks
   it. */
#include "certificate.h"

#include "detour.h"

static int write_detour(FILE *to, const struct table *t, struct paths *p, size_t i) {
    struct detour d;
    size_t k;
    if (!detour_of(&d, p, t, i)) return 0;
    fprintf(to, "left-out %zu dearest %u detour", i, d.dearest);
    for (k = 0; k < d.count; k++) fprintf(to, " %u", d.row[k]);
    fputc('\n', to);
    return 1;
}

static int write_passed(FILE *to, const struct table *t, struct star_answer a) {
    static struct paths p;
    char figures[FIGURES];
    size_t i;
    p.from = 0;
    fprintf(to, "passed %s %s\n", amount_figures(figures, a.amount), a.only ? "only" : "not-only");
    for (i = table_next(t, 0); i <= t->m; i = table_next(t, i))
        if (!t->mark[i - 1] && !write_detour(to, t, &p, i)) return 0;
    return 1;
}

static int write_cheaper(FILE *to, const struct table *t, struct star_answer a) {
    int64_t before = table_plan_total(t);
    char figures[2][FIGURES];
    amount_figures(figures[0], before);
    amount_figures(figures[1], before - a.amount);
    fprintf(to, "cheaper %u %u %s %s\n", (unsigned)a.out, (unsigned)a.in, figures[0], figures[1]);
    return 1;
}

int certificate_write(FILE *to, const struct table *t, struct star_answer a) {
    if (a.kind == STAR_PASSED) return write_passed(to, t, a);
    return a.kind == STAR_LIGHTER && write_cheaper(to, t, a);
}
