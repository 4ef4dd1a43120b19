/* The commands: they ask the doors, and put the answers in words. */
#include "commands.h"

#include "certificate.h"
#include "edit.h"
#include "faults.h"
#include "json.h"
#include "picture.h"
#include "refusal.h"
#include "ring.h"
#include "status.h"
#include "usage.h"
#include "verdict.h"

/* A refusal, where the result would be no place for it. */
static int refused(const struct table *t, struct star_answer a) {
    struct message words = {{0}, 0};
    refusal_words(&words, t, a);
    fault_tell(&words);
    return EXIT_REFUSED;
}

/* Writes the words, if there are any, and a line end. */
static void told(FILE *to, const struct message *words) {
    if (words->len > 0) fprintf(to, "%s\n", words->text);
}

/* What check says, in words. */
static void check_words(FILE *to, const struct table *t, struct star_answer a) {
    struct message words = {{0}, 0}, gap = {{0}, 0}, next = {{0}, 0};
    verdict_words(&words, t, a);
    verdict_gap(&gap, t, a);
    verdict_next(&next, t, a);
    told(to, &words);
    told(to, &gap);
    if (refusal_of_plan(a) && table_marks(t) > 0) ring_tell(to, t, 0);
    told(to, &next);
}

static void check_json(FILE *to, const struct table *t, struct star_answer a,
                       const struct options *with, int status) {
    struct json j;
    json_begin(&j, to, with, verdict_name(a), status);
    verdict_json(&j, t, a);
    json_end(&j);
}

int command_check(struct table *t, const struct options *with, struct output *o) {
    static const int status[] = {
        [STAR_PASSED] = EXIT_PASSED, [STAR_LIGHTER] = EXIT_LIGHTER, [STAR_REFUSED] = EXIT_REFUSED};
    struct star_answer a = table_judged(t);
    FILE *to;
    if (with->json && with->certificate)
        return misused("an object or a certificate is written, and not both, by", "check");
    to = output_open(o);
    if (!to) return EXIT_UNWRITTEN;
    if (with->certificate && certificate_write(to, t, a)) return status[a.kind];
    if (with->json) check_json(to, t, a, with, status[a.kind]);
    else check_words(to, t, a);
    return status[a.kind];
}

/* What the marks cost before they were replaced. */
static void say_saving(struct message *to, struct star_answer before, int64_t marked,
                       int64_t total) {
    char figures[2][FIGURES];
    say(to, "The marked trenches cost %s", amount_figures(figures[0], marked));
    if (before.kind == STAR_REFUSED)
        say(to, ", and are no network: they %s",
            before.number == STAR_BAD_MARK_COUNT ? "are not one fewer than the junctions"
                                                 : "do not reach every junction");
    else if (marked == total) say(to, " too");
    else say(to, ": these save %s", amount_figures(figures[1], marked - total));
    say(to, ".");
}

/* The marks before: none, or what they cost, and whether they were a network. */
struct marked {
    struct star_answer answer;
    size_t marks;
    int64_t cost;
};

/* Whether something can be said of them: the table is sound, and some trench was marked. */
static int had_marks(const struct marked *m) {
    return m->marks > 0 && (m->answer.kind != STAR_REFUSED || refusal_of_plan(m->answer));
}

static void build_words(FILE *to, const struct table *t, struct star_answer a,
                        const struct marked *m) {
    struct message words = {{0}, 0};
    char figures[FIGURES];
    table_list(to, t, t->mark, 1, t->m);
    fprintf(to, "Total %s\n", amount_figures(figures, a.amount));
    if (had_marks(m)) say_saving(&words, m->answer, m->cost, a.amount);
    told(to, &words);
}

static void build_json(FILE *to, const struct table *t, struct star_answer a,
                       const struct marked *m, const struct options *with) {
    struct json j;
    json_begin(&j, to, with, "built", EXIT_PASSED);
    json_number(&j, "total", a.amount);
    json_rows(&j, "rows", t, t->mark, 1, t->m);
    if (had_marks(m)) {
        json_open(&j, "marked", '{');
        json_number(&j, "cost", m->cost);
        json_truth(&j, "network", m->answer.kind != STAR_REFUSED);
        if (m->answer.kind != STAR_REFUSED) json_number(&j, "saving", m->cost - a.amount);
        json_close(&j, '}');
    }
    json_end(&j);
}

int command_build(struct table *t, const struct options *with, struct output *o) {
    struct marked before;
    struct message words = {{0}, 0};
    struct star_answer a;
    FILE *to;
    before.answer = table_cst(t);
    before.marks = table_marks(t);
    before.cost = table_plan_total(t);
    a = table_mst1(t);
    if (a.kind != STAR_PASSED) {
        refusal_words(&words, t, a);
        return tell_refused(o, with, &words);
    }
    if (with->table) return edit_marks(o, t);
    to = output_open(o);
    if (!to) return EXIT_UNWRITTEN;
    if (with->json) build_json(to, t, a, &before, with);
    else build_words(to, t, a, &before);
    return EXIT_PASSED;
}

static int table_csv(struct output *o, const struct table *t) {
    struct message fault = {{0}, 0};
    FILE *to = output_open(o);
    if (!to) return EXIT_UNWRITTEN;
    if (table_write(to, t, ';', &fault)) return EXIT_PASSED;
    fault_tell(&fault);
    return EXIT_UNWRITTEN;
}

int command_table(struct table *t, const struct options *with, struct output *o) {
    struct star_answer a = table_cst(t);
    if (a.kind == STAR_REFUSED && !refusal_of_plan(a)) return refused(t, a);
    return with->csv ? table_csv(o, t) : edit_marks(o, t);
}

/* A picture with what check says of the plan. A plan that is refused is drawn, since its table is
   sound, and its refusal is told; where no trench is marked there is no plan to refuse. */
static int picture(struct table *t, struct output *o,
                   void (*paint)(FILE *, const struct picture *)) {
    struct star_answer a = table_judged(t);
    struct picture p = {t, 0, 0, {{0}, 0}, 0};
    char amount[FIGURES];
    int status = EXIT_PASSED;
    FILE *to;
    if (a.kind == STAR_REFUSED && !refusal_of_plan(a)) return refused(t, a);
    amount_figures(amount, a.amount);
    if (a.kind == STAR_PASSED) {
        say(&p.words, "Passed. Total %s.", amount);
    } else if (a.kind == STAR_LIGHTER) {
        p.out = a.out;
        p.in = a.in;
        say(&p.words, "A cheaper set exists, for %s less: take out ", amount);
        say_trench(&p.words, t, a.out);
        say(&p.words, ", put in ");
        say_trench(&p.words, t, a.in);
        say(&p.words, ".");
    } else if (table_marks(t) == 0) {
        say(&p.words, "No trench is marked.");
    } else {
        status = refused(t, a);
        t->file = NULL; /* the picture says it without the file's name */
        p.refused = 1;
        refusal_words(&p.words, t, a);
    }
    to = output_open(o);
    if (!to) return EXIT_UNWRITTEN;
    paint(to, &p);
    return status;
}

int command_draw(struct table *t, const struct options *with, struct output *o) {
    (void)with;
    return picture(t, o, picture_svg);
}

int command_dot(struct table *t, const struct options *with, struct output *o) {
    (void)with;
    return picture(t, o, picture_dot);
}
