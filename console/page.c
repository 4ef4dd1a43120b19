/* The command page: the page's program with the table inside (program.c), or one HTML file that
   explains a plan in pictures, which is written here. Style and script stand in it, and nothing is
   fetched. */
#include <string.h>

#include "commands.h"
#include "panels.h"
#include "picture.h"
#include "program.h"
#include "refusal.h"
#include "status.h"
#include "verdict.h"

static const char STYLE[] =
    "body{font:16px/1.45 Arial,'Liberation "
    "Sans',sans-serif;color:#222;background:#fff;max-width:1180px;margin:0 auto;padding:0 20px "
    "40px}\n"
    "h1{font-size:26px}h2{font-size:20px;border-top:1px solid "
    "#999;padding-top:16px;margin-top:36px}\n"
    ".core{border-left:6px solid #1b5e20;background:#eef5ee;padding:6px 12px}.where{color:#555}\n"
    ".refused{border:2px solid #b3261e;border-left-width:6px;background:#fdecea;padding:6px 12px}\n"
    ".fit.stage{max-height:none}.fit.stage svg{width:100%;height:auto}\n"
    ".stage{overflow:auto;max-height:680px;border:1px solid #ccc;background:#fff}.stage "
    "svg{display:block;margin:0 auto}\n"
    ".count{font-size:22px}.two{display:flex;flex-wrap:wrap;gap:16px}.half{flex:1 1 "
    "420px;min-width:0}\n"
    ".pick{position:relative;display:grid;grid-template-columns:230px "
    "minmax(0,1fr);grid-template-rows:auto 1fr;gap:10px}\n"
    ".pick input{position:absolute;opacity:0;width:1px;height:1px}.pick "
    ".side{grid-row:1/3;overflow:auto;max-height:780px;border:1px solid #ccc}\n"
    ".side label{display:block;padding:3px 8px;cursor:pointer}.side "
    "small{color:#555}.words{min-height:6em}.words p,.stage svg g[class^=v]{display:none}.words "
    "p{margin:0}\n"
    "@media(max-width:760px){.pick{grid-template-columns:1fr;grid-template-rows:none}.pick "
    ".side{grid-row:auto;max-height:200px}}\n"
    "path{fill:none;stroke-linecap:round}use.other,path.other{stroke:#a6a6a6;stroke-width:1.2}."
    "plan{stroke:#222;stroke-width:4}\n"
    ".ring{stroke:#c2185b;stroke-width:8}.detour{stroke:#f9a825;stroke-width:7}.dearest{stroke:#"
    "8e0000;stroke-width:13}\n"
    ".left-out{stroke:#1565c0;stroke-width:5;stroke-dasharray:2 "
    "9}.out{stroke:#c2185b;stroke-width:7;stroke-dasharray:12 "
    "9}.in{stroke:#4fc3f7;stroke-width:7}\n"
    ".beyond{stroke:#a6a6a6;stroke-width:2;stroke-dasharray:3 "
    "7}.no{stroke:#c2185b;stroke-width:4}\n"
    "circle{fill:var(--fill,#fff);stroke:#222;stroke-width:var(--edge,1.5)}.cut{--fill:#ffd54f;--"
    "edge:5}.ground{fill:#fff;fill-opacity:.88}\n"
    ".name{font-size:12px;text-anchor:middle;fill:#222}.label{font-size:11px;text-anchor:middle;"
    "fill:#333}.strong{font-weight:bold}.tick{font-size:14px;fill:#222}\n"
    ".key{color:#333}.key "
    "span{white-space:nowrap;margin-right:14px}.sample{vertical-align:middle;margin-right:6px}"
    "footer{border-top:1px solid #999;margin-top:40px;font-size:14px}\n";

/* Moves a large drawing to the detour that is chosen; without it everything is still there, and is
   scrolled to by hand. */
static const char SCRIPT[] =
    "<script>\n"
    "document.querySelectorAll('.pick').forEach(function (p) {\n"
    "  var stage = p.querySelector('.stage');\n"
    "  function show(i) {\n"
    "    var b = p.querySelector('svg g.' + i.id).getBoundingClientRect(), s = "
    "stage.getBoundingClientRect();\n"
    "    stage.scrollLeft += b.left + b.width / 2 - s.left - s.width / 2;\n"
    "    stage.scrollTop += b.top + b.height / 2 - s.top - s.height / 2;\n"
    "  }\n"
    "  p.addEventListener('change', function (e) { show(e.target); });\n"
    "  show(p.querySelector('input:checked'));\n"
    "});\n"
    "</script>\n";

static const char FOOTER[] =
    "<footer>\n<p>A sentence with a green bar at its left is an answer of the proved core in "
    "words: passed or not, the total of a plan that passed, whether it is the only cheapest "
    "network,\n"
    "the exchange that is named and what it saves (star_best, star_other), the totals before and "
    "after it (star_total), the least total (star_best), a refusal by its number in the\n"
    "library's words (star_cst). What this page says of a refusal stands in a red box: its place "
    "is the core's answer, and what is counted in it is counted by this page. The trenches of each "
    "detour come from the core too (star_paths),\n"
    "and so do groups that stand apart and the trenches that close rings (star_groups), and which "
    "of these make one ring (star_mst1 and star_paths on a group's marked trenches).</p>\n"
    "<p>All else is drawing and arithmetic of this page, and not proved: where junctions stand, "
    "colours, the order of the trenches of a detour or a ring, sums, and which of two prices is "
    "larger.</p>\n</footer>\n";

/* The yard, for what a table does not show. Its trees 1, 2, 4 and 2, 3, 4 both cost 12; with 1, 2,
   5 it has a ring. */
static void yard(struct table *t, const char *marks) {
    static const uint8_t left[] = {1, 2, 3, 1, 1}, right[] = {2, 3, 4, 4, 3},
                         price[] = {5, 3, 5, 4, 6};
    size_t i;
    memset(t, 0, sizeof *t);
    t->n = 4;
    t->m = sizeof left;
    for (i = 0; i < t->m; i++) {
        t->left[i] = left[i];
        t->right[i] = right[i];
        star_put_price(t->weight, i, price[i]);
        t->mark[i] = (uint8_t)(marks[i] == '1');
    }
}

/* The table with the exchange that star_other names. */
static void exchanged(struct table *other, const struct table *t) {
    struct star_answer a = table_other(t);
    *other = *t;
    other->mark[a.out - 1] = 0;
    other->mark[a.in - 1] = 1;
}

static void heading(FILE *to, const char *id, const char *text, int own) {
    fprintf(to, "<section id=\"%s\">\n<h2>%s</h2>\n<p class=\"where\">%s</p>\n", id, text,
            own ? "On this table."
                : "On the yard, a table of four junctions and five trenches, since this table has "
                  "no such case.");
}

/* Which of the panels show this table. */
struct shows {
    int drawn, ring, detours, equal;
};

static struct shows shows_of(const struct table *t, struct star_answer a) {
    struct shows s;
    s.drawn = a.kind != STAR_REFUSED || refusal_of_plan(a);
    s.ring = refusal_of_plan(a) && table_marks(t) > 0;
    s.detours = a.kind != STAR_REFUSED && table_used(t) > table_marks(t);
    s.equal = a.kind == STAR_PASSED && !a.only;
    return s;
}

static void whole_plan(FILE *to, const struct drawing *g) {
    size_t i;
    fputs("<div class=\"stage\">", to);
    view_open(
        to, g, box_whole(g), "plan-view",
        "The network, its marked trenches heavy. A label has a trench's number and its price.");
    for (i = table_next(g->t, 0); i <= g->t->m; i = table_next(g->t, i))
        if (g->t->mark[i - 1] == 1) view_trench(to, g, i, "plan");
    view_tops(to, g);
    view_close(to);
    fputs("</div>\n", to);
}

static void panels(FILE *to, const struct table *t, struct shows s) {
    static struct drawing own, yards;
    static struct table example, other;
    const struct drawing *g;
    yard(&example, "11010");
    if (s.drawn) drawing_place(&own, t, "own");
    drawing_place(&yards, &example, "yard");
    fputs("<svg width=\"0\" height=\"0\" style=\"position:absolute\" aria-hidden=\"true\"><defs>\n",
          to);
    if (s.drawn) drawing_define(to, &own);
    drawing_define(to, &yards);
    fputs("</defs></svg>\n", to);
    if (s.drawn) whole_plan(to, &own);
    heading(to, "ring", "1. A right count of marks is not yet a network", s.ring);
    yard(&example, "11001");
    panel_ring(to, s.ring ? &own : &yards);
    yard(&example, "11010");
    fputs("</section>\n", to);
    heading(to, "detours", "2. The dearest trench of a detour counts, and not its sum", s.detours);
    panel_detours(to, s.detours ? &own : &yards);
    fputs("</section>\n", to);
    heading(to, "equal", "3. Two networks of one price are no contradiction", s.equal);
    g = s.equal ? &own : &yards;
    exchanged(&other, g->t);
    panel_equal(to, g, &other);
    fputs("</section>\n", to);
    heading(to, "limit", "4. 255 junctions at most", 1);
    panel_limit(to, t);
    fputs("</section>\n", to);
}

/* The name of a file without its folders. */
static const char *name_of(const char *file) {
    const char *last = strrchr(file, '/');
    return last && last[1] ? last + 1 : file;
}

static void static_page(FILE *to, struct table *t, struct star_answer a, struct shows s) {
    const char *name = name_of(t->file);
    t->file = NULL; /* the page says the file's name once, in its heading */
    fputs("<!DOCTYPE html>\n<html lang=\"en\">\n<head>\n<meta charset=\"utf-8\">\n<meta "
          "name=\"viewport\" content=\"width=device-width, initial-scale=1\">\n<title>",
          to);
    html_text(to, name);
    fprintf(to, "</title>\n<style>\n%s%s</style>\n</head>\n<body>\n<h1>", STYLE,
            t->names > 0 ? PICTURE_NAMES "\n" : "");
    html_text(to, name);
    fputs("</h1>\n", to);
    if (s.drawn && a.kind == STAR_REFUSED && table_marks(t) == 0)
        panel_plain(to, "No trench is marked.");
    else panel_verdict(to, t, a);
    panels(to, t, s);
    fprintf(to, "%s%s</body>\n</html>\n", FOOTER, SCRIPT);
}

int command_page(struct table *t, const struct options *with, struct output *o) {
    struct star_answer a = table_judged(t);
    struct shows s = shows_of(t, a);
    struct message words = {{0}, 0};
    struct program p;
    enum found found = NOT_FOUND;
    int status = EXIT_PASSED;
    FILE *to;
    verdict_words(&words, t, a);
    if (a.kind == STAR_REFUSED && table_marks(t) > 0) status = EXIT_REFUSED;
    if (!s.drawn) status = EXIT_REFUSED;
    if (status == EXIT_REFUSED) fprintf(stderr, "%s\n", words.text);
    if (!s.drawn && a.number != STAR_BAD_JUNCTION_COUNT) return status;
    if (!with->static_page) found = program_open(&p);
    to = found == OTHER_VERSION ? NULL : output_open(o);
    if (to && found == FOUND) program_write(to, &p, t, name_of(t->file));
    if (to && found == NOT_FOUND) static_page(to, t, a, s);
    if (found == FOUND) program_close(&p);
    if (!to) return EXIT_UNWRITTEN;
    return status;
}
