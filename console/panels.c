/* The panels of a page. */
#include "panels.h"

#include <inttypes.h>
#include <string.h>

#include "commands.h"
#include "detour.h"
#include "ring.h"
#include "verdict.h"

enum { RINGS = 20 }; /* rings that are named before the others are asked for */

/* A paragraph of some look. */
static void paragraph(FILE *to, const char *look, const char *text) {
    fprintf(to, "<p class=\"%s\">", look);
    html_text(to, text);
    fputs("</p>\n", to);
}

void panel_plain(FILE *to, const char *text) { paragraph(to, "plain", text); }

void panel_verdict(FILE *to, const struct table *t, struct star_answer a) {
    struct message words = {{0}, 0}, gap = {{0}, 0}, number = {{0}, 0};
    verdict_words(&words, t, a);
    verdict_gap(&gap, t, a);
    if (a.kind == STAR_REFUSED) {
        say(&number, "Refused (%u): %s.", (unsigned)a.number, star_refusal_text(a.number));
        paragraph(to, "core", number.text);
    }
    paragraph(to, a.kind == STAR_REFUSED ? "refused" : "core", words.text);
    if (gap.len > 0) panel_plain(to, gap.text);
}

static void plan(FILE *to, const struct drawing *g, const struct table *t) {
    size_t i;
    for (i = table_next(t, 0); i <= t->m; i = table_next(t, i))
        if (t->mark[i - 1] == 1) view_trench(to, g, i, "plan");
}

static void sample(FILE *to, const char *look, const char *says) {
    fprintf(to,
            "<span><svg class=\"sample\" width=\"34\" height=\"14\" aria-hidden=\"true\"><path "
            "class=\"%s\" d=\"M3 7h28\"/></svg>%s</span> ",
            look, says);
}

/* The trenches of all rings, and the part of the sheet that they are in. */
struct rings {
    uint8_t on[STAR_MAX_ROWS + 1];
    struct box around;
};

static void rings_of(struct rings *all, const struct drawing *g, struct ring *r) {
    size_t k, i;
    memset(all->on, 0, sizeof all->on);
    all->around = box_empty();
    for (k = 0; k < r->rings && ring_nth(r, g->t, k); k++)
        for (i = 0; i < r->count; i++) {
            all->on[r->row[i]] = 1;
            box_trench(&all->around, g, r->row[i]);
        }
    if (r->rings > 0) ring_nth(r, g->t, 0);
}

/* A view of the rings and of the junctions that stand apart. */
static void ring_view(FILE *to, const struct drawing *g, const struct ring *r,
                      const struct rings *all, struct box b, const char *name, const char *says) {
    size_t k;
    view_open(to, g, b, name, says);
    plan(to, g, g->t);
    for (k = 1; k <= STAR_MAX_ROWS; k++)
        if (all->on[k]) view_trench(to, g, k, "ring");
    view_tops(to, g);
    for (k = 1; k <= STAR_MAX_ROWS; k++)
        if (all->on[k]) view_label(to, g, k);
    for (k = 0; k < r->cuts; k++) view_junction(to, g, r->cut[k], "cut");
    view_close(to);
}

static void ring_half(FILE *to, const struct drawing *g, const struct ring *r,
                      const struct rings *all, struct box b, const char *name, const char *says) {
    fputs("<div class=\"half\"><div class=\"stage\">", to);
    ring_view(to, g, r, all, box_shown(b, g), name, says);
    fputs("</div></div>\n", to);
}

/* One view of all rings and cuts where they are close together; else the whole sheet, made to fit,
   where there is more than one ring, and a view of the first ring and of the first cut. */
static void ring_views(FILE *to, const struct drawing *g, const struct ring *r,
                       const struct rings *all, const char *ring, const char *cuts) {
    struct box first = box_empty(), cut = box_empty(), both = all->around;
    size_t k;
    for (k = 0; k < r->count; k++) box_trench(&first, g, r->row[k]);
    if (r->cuts > 0) box_junction(&cut, g, r->cut[0]);
    for (k = 0; k < r->cuts; k++) box_junction(&both, g, r->cut[k]);
    if (r->rings > 1 && !box_close(both, g)) {
        fputs("<div class=\"stage fit\">", to);
        ring_view(to, g, r, all, box_whole(g), "rings-view", "The network with all rings.");
        fputs("</div>\n", to);
    }
    fputs("<div class=\"two\">\n", to);
    if (r->count == 0 || box_close(both, g) || (r->cuts == 0 && r->rings == 1)) {
        ring_half(to, g, r, all, both, "ring-view", r->count > 0 ? ring : cuts);
    } else {
        ring_half(to, g, r, all, first, "ring-view", ring);
        if (r->cuts > 0) ring_half(to, g, r, all, cut, "cut-view", cuts);
    }
    fputs("</div>\n", to);
}

/* Each ring in words: the first twenty, and the others where they are asked for. */
static void ring_names(FILE *to, const struct drawing *g, struct ring *r) {
    struct message words = {{0}, 0};
    size_t k;
    for (k = 0; k < r->rings && ring_nth(r, g->t, k); k++) {
        if (k == RINGS)
            fprintf(to, "<details><summary>%zu more rings</summary>\n", r->rings - RINGS);
        ring_words(&words, r, g->t);
        panel_plain(to, words.text);
        words.len = 0;
    }
    if (k > RINGS) fputs("</details>\n", to);
    ring_advice(&words, r);
    if (words.len > 0) panel_plain(to, words.text);
}

void panel_ring(FILE *to, const struct drawing *g) {
    static struct ring r;
    static struct rings all;
    struct message count = {{0}, 0}, ring = {{0}, 0}, cuts = {{0}, 0};
    ring_of(&r, g->t);
    rings_of(&all, g, &r);
    ring_count(&count, g->t);
    ring_words(&ring, &r, g->t);
    ring_groups(&cuts, &r, g->t);
    fprintf(to,
            "<p class=\"count\"><b>%zu</b> marked, <b>%" PRIu32 "</b> junctions: %" PRIu32
            " - 1 = %" PRIu32 "</p>\n",
            table_marks(g->t), g->t->n, g->t->n, g->t->n - 1);
    panel_plain(to, count.text);
    ring_views(to, g, &r, &all, ring.text, cuts.text);
    fputs("<p class=\"key\">", to);
    sample(to, "plan", "marked");
    if (r.count > 0) sample(to, "ring", "marked, in a ring");
    if (r.cuts > 0)
        fputs("<span><svg class=\"sample cut\" width=\"20\" height=\"20\" "
              "aria-hidden=\"true\"><circle cx=\"10\" cy=\"10\" r=\"7\"/></svg>stands apart</span>",
              to);
    fputs("</p>\n", to);
    ring_names(to, g, &r);
    if (cuts.len > 0) panel_plain(to, cuts.text);
    panel_verdict(to, g->t, table_judged(g->t));
}

/* The sentences of one trench that is left out: its sum struck through, the dearest trench
   compared. */
static void detour_sentences(FILE *to, const struct table *t, size_t i, const struct detour *d) {
    struct message words = {{0}, 0};
    char sum[FIGURES], dearest[FIGURES];
    fprintf(to, "<p class=\"v%zu\">", i);
    say_trench(&words, t, i);
    say(&words, " is left out. Its detour: ");
    detour_rows(&words, d->row, d->count);
    say(&words, " (");
    detour_stops(&words, t, d->stop, d->count + 1);
    say(&words, ").");
    html_text(to, words.text);
    fprintf(to, "<br><s>sum %s</s> does not count. Dearest: <b>%s</b> (trench %u). ",
            amount_figures(sum, d->sum), table_price(dearest, t, d->dearest), d->dearest);
    words.len = 0;
    detour_compared(&words, t, i, d, table_plan_total(t));
    html_text(to, words.text);
    fputs(".</p>\n", to);
}

/* The lines of one view: the detour, its dearest trench thick, and the trench that is left out. */
static void detour_lines(FILE *to, const struct drawing *g, size_t i, const struct detour *d) {
    size_t k;
    fprintf(to, "<g class=\"v%zu\"><title>trench %zu and its detour</title>", i, i);
    for (k = 0; k < d->count; k++)
        if (d->row[k] != d->dearest) view_trench(to, g, d->row[k], "detour");
    view_trench(to, g, d->dearest, "dearest");
    view_trench(to, g, i, "left-out");
    fputs("</g>\n", to);
}

static void detour_labels(FILE *to, const struct drawing *g, size_t i, const struct detour *d) {
    size_t k;
    fprintf(to, "<g class=\"v%zu\">", i);
    for (k = 0; k < d->count; k++) view_label(to, g, d->row[k]);
    view_label(to, g, i);
    fputs("</g>\n", to);
}

/* The rule that shows view i where it is chosen. */
static void detour_rule(FILE *to, const struct drawing *g, size_t i, const struct detour *d) {
    (void)g;
    (void)d;
    fprintf(to,
            "#v%zu:checked~div .v%zu{display:block}#v%zu:checked~div "
            ".c%zu{background:#ffe08a}#v%zu:focus-visible~div .c%zu{outline:2px solid #222}\n",
            i, i, i, i, i, i);
}

static void detour_name(FILE *to, const struct drawing *g, size_t i, const struct detour *d) {
    static const char *const says[STANDINGS] = {"saves", "equal", "stays out"};
    char price[FIGURES];
    fprintf(to, "<label class=\"c%zu\" for=\"v%zu\">trench %zu: %s <small>%s</small></label>\n", i,
            i, i, table_price(price, g->t, i), says[d->standing]);
}

static void detour_words(FILE *to, const struct drawing *g, size_t i, const struct detour *d) {
    detour_sentences(to, g->t, i, d);
}

/* Does one thing for each trench that is left out: those that save first, those that are equal
   next. */
static void each(FILE *to, const struct drawing *g,
                 void (*act)(FILE *, const struct drawing *, size_t, const struct detour *)) {
    static struct paths p;
    static struct detour d;
    size_t i;
    int standing;
    p.from = 0;
    for (standing = CHEAPER; standing < STANDINGS; standing++)
        for (i = table_next(g->t, 0); i <= g->t->m; i = table_next(g->t, i))
            if (g->t->mark[i - 1] != 1 && detour_of(&d, &p, g->t, i) && (int)d.standing == standing)
                act(to, g, i, &d);
}

static int first_choice;

static void detour_choice(FILE *to, const struct drawing *g, size_t i, const struct detour *d) {
    (void)g;
    (void)d;
    fprintf(to, "<input type=\"radio\" name=\"view\" id=\"v%zu\"%s>", i,
            first_choice ? " checked" : "");
    first_choice = 0;
}

void panel_detours(FILE *to, const struct drawing *g) {
    fputs("<p>Choose a trench that is left out. It is held against the dearest trench of its "
          "detour, and against nothing else.</p>\n<style>",
          to);
    each(to, g, detour_rule);
    fputs("</style>\n<div class=\"pick\">\n", to);
    first_choice = 1;
    each(to, g, detour_choice);
    fputs("\n<div class=\"side\">\n", to);
    each(to, g, detour_name);
    fputs("</div>\n<div class=\"words\">\n", to);
    each(to, g, detour_words);
    fputs("</div>\n<div class=\"stage\">", to);
    view_open(to, g, box_whole(g), "detour-view",
              "The network, with the plan, the trench that is left out and is chosen above, and "
              "its detour.");
    plan(to, g, g->t);
    fputs("\n", to);
    each(to, g, detour_lines);
    view_tops(to, g);
    each(to, g, detour_labels);
    view_close(to);
    fputs("</div>\n</div>\n<p class=\"key\">", to);
    sample(to, "plan", "marked");
    sample(to, "detour", "detour");
    sample(to, "dearest", "its dearest trench");
    sample(to, "left-out", "left out");
    fputs("</p>\n", to);
    panel_verdict(to, g->t, table_judged(g->t));
}

/* One of two networks: those of its trenches that the other has not are drawn in colour. */
static void one_network(FILE *to, const struct drawing *g, struct box b, const struct table *t,
                        const struct table *other, const char *name, const char *look) {
    struct message core = {{0}, 0}, says = {{0}, 0};
    struct star_answer a = table_cst(t);
    char total[FIGURES];
    size_t i;
    say(&core, a.kind == STAR_PASSED ? "Passed. Total %s." : "Total %s.",
        amount_figures(total, a.amount));
    if (a.kind == STAR_PASSED && !a.only) say(&core, " Not the only cheapest network.");
    say(&says, "A cheapest network with a total of %s.", total);
    fputs("<div class=\"half\"><div class=\"stage\">", to);
    view_open(to, g, b, name, says.text);
    for (i = table_next(t, 0); i <= t->m; i = table_next(t, i))
        if (t->mark[i - 1] == 1) view_trench(to, g, i, other->mark[i - 1] == 1 ? "plan" : look);
    view_tops(to, g);
    for (i = table_next(t, 0); i <= t->m; i = table_next(t, i))
        if (t->mark[i - 1] != other->mark[i - 1]) view_label(to, g, i);
    view_close(to);
    fputs("</div>\n", to);
    paragraph(to, "core", core.text);
    fputs("</div>\n", to);
}

void panel_equal(FILE *to, const struct drawing *g, const struct table *other) {
    struct message words = {{0}, 0};
    struct box b = box_empty();
    size_t i, out = 0, in = 0;
    for (i = table_next(g->t, 0); i <= g->t->m; i = table_next(g->t, i))
        if (g->t->mark[i - 1] != other->mark[i - 1]) {
            box_trench(&b, g, i);
            if (other->mark[i - 1] == 1) in = i;
            else out = i;
        }
    say(&words, "Both reach every junction, and both cost the same: ");
    if (out > 0 && in > 0) {
        say_trench(&words, g->t, out);
        say(&words, " goes, and ");
        say_trench(&words, g->t, in);
        say(&words, " comes in");
    }
    say(&words, ". Neither is wrong.");
    panel_plain(to, words.text);
    fputs("<div class=\"two\">\n", to);
    one_network(to, g, box_shown(b, g), g->t, other, "equal-first", "out");
    one_network(to, g, box_shown(b, g), other, g->t, "equal-second", "in");
    fputs("</div>\n<p class=\"key\">", to);
    sample(to, "plan", "in both");
    sample(to, "out", "in the first alone");
    sample(to, "in", "in the second alone");
    fputs("</p>\n", to);
}

/* A mark of the number line, above or below it, with its text to the left (-1) or to the right
   (1). */
static void tick(FILE *to, double x, int above, int side, const char *look, const char *says) {
    fprintf(to,
            "<path class=\"%s\" d=\"M%.0f 80v%d\"/><text class=\"tick\" x=\"%.0f\" y=\"%d\" "
            "text-anchor=\"%s\">%s</text>\n",
            look, x, above ? -22 : 22, x + 4 * side, above ? 50 : 120, side < 0 ? "end" : "start",
            says);
}

void panel_limit(FILE *to, const struct table *t) {
    enum { LEFT = 130, STEP = 3 };
    struct message words = {{0}, 0}, says = {{0}, 0};
    double last = LEFT + STEP * STAR_MAX_JUNCTIONS,
           own = t->n <= STAR_MAX_JUNCTIONS ? LEFT + (double)STEP * t->n : last + 90;
    explain_limit(&words);
    panel_plain(to, words.text);
    say(&says, "A number line: 0 is no junction, 1 to 255 are junctions, 256 has no code. This "
               "table has ");
    say(&says, "%" PRIu32 ".", t->n);
    fprintf(to,
            "<div class=\"stage\"><svg id=\"limit-view\" role=\"img\" "
            "aria-labelledby=\"limit-view-says\" width=\"1060\" height=\"150\" viewBox=\"0 0 1060 "
            "150\"><title id=\"limit-view-says\">%s</title>\n",
            says.text);
    fprintf(
        to,
        "<path class=\"plan\" d=\"M%d 80H%.0f\"/><path class=\"beyond\" d=\"M%.0f 80H%.0f\"/>\n",
        LEFT + STEP, last, last, last + 110);
    fprintf(to, "<path class=\"no\" d=\"M%d 74l12 12m0-12l-12 12\"/>", LEFT - 6);
    tick(to, LEFT, 1, -1, "other", "0: no junction");
    tick(to, LEFT + STEP, 1, 1, "plan", "1: the first junction");
    tick(to, last, 1, -1, "plan", "255: the last junction");
    tick(to, last + STEP, 1, 1, "no", "256: no code");
    words.len = 0;
    say(&words, "this table: %" PRIu32, t->n);
    tick(to, own, 0, t->n > 220 ? -1 : 1, t->n <= STAR_MAX_JUNCTIONS ? "in" : "no", words.text);
    fputs("</svg></div>\n", to);
}
