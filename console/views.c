/* Writes drawings and views as SVG inside a page. */
#include "views.h"

#include <string.h>

#include "picture.h"

enum {
    AROUND = 70,
    SMALL = 900,
    LEAST_WIDE = 520,
    LEAST_HIGH = 360,
    CLOSE_WIDE = 1100,
    CLOSE_HIGH = 660
};

void html_text(FILE *to, const char *text) {
    for (; *text; text++)
        if (*text == '\n') fputs("<br>", to);
        else picture_letters(to, text, 1);
}

void html_value(FILE *to, const char *text) {
    for (; *text; text++)
        if (*text == '"' || *text == '\n') fprintf(to, "&#%d;", *text);
        else picture_letters(to, text, 1);
}

void drawing_place(struct drawing *g, const struct table *t, const char *id) {
    static struct picture plan;
    g->t = plan.t = t;
    g->id = id;
    picture_place(&g->l, &plan);
}

static void define_labels(FILE *to, const struct drawing *g) {
    char text[2 * FIGURES];
    size_t i;
    for (i = table_next(g->t, 0); i <= g->t->m; i = table_next(g->t, i)) {
        const struct label *own = &g->l.label[i - 1];
        if (!own->shown) continue;
        picture_label(text, sizeof text, g->t, i);
        fprintf(to,
                "<g id=\"%s-l%zu\"><rect class=\"ground\" x=\"%.1f\" y=\"%.1f\" width=\"%.1f\" "
                "height=\"%d\"/><text class=\"label\" x=\"%.1f\" y=\"%.1f\">%s</text></g>\n",
                g->id, i, own->at.x - own->width / 2, own->at.y - LABEL_HEIGHT / 2.0, own->width,
                LABEL_HEIGHT, own->at.x, own->at.y + LABEL_FONT * 0.36, text);
    }
}

void drawing_define(FILE *to, const struct drawing *g) {
    size_t i;
    uint32_t v;
    fprintf(to, "<g id=\"%s-lines\">\n", g->id);
    for (i = table_next(g->t, 0); i <= g->t->m; i = table_next(g->t, i)) {
        const struct curve *c = &g->l.trench[i - 1];
        fprintf(to, "<path id=\"%s-t%zu\" d=\"M%.1f %.1fQ%.1f %.1f %.1f %.1f\"/>\n", g->id, i,
                c->from.x, c->from.y, c->bend.x, c->bend.y, c->to.x, c->to.y);
    }
    fprintf(to, "</g>\n<g id=\"%s-tops\">\n", g->id);
    for (v = 1; v <= g->t->n; v++) {
        fprintf(to, "<g id=\"%s-j%u\">", g->id, (unsigned)v);
        picture_junction(to, &g->l, g->t, v);
        fputs("</g>\n", to);
    }
    define_labels(to, g);
    fprintf(to, "</g>\n");
}

struct box box_whole(const struct drawing *g) {
    struct box b = {0, 0, g->l.width, g->l.height};
    return b;
}

struct box box_empty(void) {
    struct box b = {1e9, 1e9, -1e9, -1e9};
    return b;
}

static void include(struct box *b, struct point p) {
    if (p.x < b->left) b->left = p.x;
    if (p.x > b->right) b->right = p.x;
    if (p.y < b->top) b->top = p.y;
    if (p.y > b->bottom) b->bottom = p.y;
}

void box_trench(struct box *b, const struct drawing *g, size_t i) {
    int k;
    for (k = 0; k <= 2; k++) include(b, layout_on(&g->l.trench[i - 1], k / 2.0));
}

void box_junction(struct box *b, const struct drawing *g, unsigned v) { include(b, g->l.at[v]); }

/* Widens a side to a least length, and keeps it on the sheet. */
static void side(double *from, double *to, double least, double sheet) {
    double more = (least - (*to - *from)) / 2;
    if (more > 0) {
        *from -= more;
        *to += more;
    }
    if (*from < 0) {
        *to -= *from;
        *from = 0;
    }
    if (*to > sheet) {
        *from -= *to - sheet;
        *to = sheet;
    }
    if (*from < 0) *from = 0;
}

struct box box_shown(struct box b, const struct drawing *g) {
    if (b.right < b.left || (g->l.width <= SMALL && g->l.height <= SMALL)) return box_whole(g);
    b.left -= AROUND;
    b.right += AROUND;
    b.top -= AROUND;
    b.bottom += AROUND;
    side(&b.left, &b.right, LEAST_WIDE, g->l.width);
    side(&b.top, &b.bottom, LEAST_HIGH, g->l.height);
    return b;
}

int box_close(struct box b, const struct drawing *g) {
    b = box_shown(b, g);
    return b.right - b.left <= CLOSE_WIDE && b.bottom - b.top <= CLOSE_HIGH;
}

void view_open(FILE *to, const struct drawing *g, struct box b, const char *name,
               const char *says) {
    fprintf(to,
            "<svg id=\"%s\" role=\"img\" aria-labelledby=\"%s-says\" width=\"%.0f\" "
            "height=\"%.0f\" viewBox=\"%.0f %.0f %.0f %.0f\">\n<title id=\"%s-says\">",
            name, name, b.right - b.left, b.bottom - b.top, b.left, b.top, b.right - b.left,
            b.bottom - b.top, name);
    html_text(to, says);
    fprintf(to, "</title>\n<use href=\"#%s-lines\" class=\"other\"/>\n", g->id);
}

void view_trench(FILE *to, const struct drawing *g, size_t i, const char *look) {
    fprintf(to, "<use href=\"#%s-t%zu\" class=\"%s\"/>", g->id, i, look);
}

void view_tops(FILE *to, const struct drawing *g) {
    fprintf(to, "\n<use href=\"#%s-tops\"/>\n", g->id);
}

void view_junction(FILE *to, const struct drawing *g, unsigned v, const char *look) {
    fprintf(to, "<use href=\"#%s-j%u\" class=\"%s\"/>", g->id, v, look);
}

void view_label(FILE *to, const struct drawing *g, size_t i) {
    if (g->l.label[i - 1].shown) fprintf(to, "<use href=\"#%s-l%zu\" class=\"strong\"/>", g->id, i);
}

void view_close(FILE *to) { fprintf(to, "\n</svg>\n"); }
