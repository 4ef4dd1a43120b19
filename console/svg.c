/* Writes a picture as SVG: trenches, then labels on white ground, then junctions; below them what
   is said of the plan, and what the lines mean. */
#include <string.h>

#include "layout.h"
#include "picture.h"

enum { LINE = 18, LETTER = 8, SAMPLE = 26, BESIDE = 32 };

void picture_letters(FILE *to, const char *text, size_t len) {
    for (; len > 0; text++, len--)
        if (*text == '&') fputs("&amp;", to);
        else if (*text == '<') fputs("&lt;", to);
        else if (*text == '>') fputs("&gt;", to);
        else putc(*text, to);
}

/* How many letters of a text go on a line of at most `room`: whole words. */
static size_t line_length(const char *text, size_t room) {
    size_t len = strlen(text), k;
    if (len <= room) return len;
    for (k = room; k > 0; k--)
        if (text[k] == ' ') return k;
    return room;
}

/* Writes the verdict from a height down, and gives the height of the next line; counts alone where
   `to` is NULL. */
static double verdict(FILE *to, const char *text, double width, double y) {
    while (*text) {
        size_t len = line_length(text, (size_t)(width - 24) / LETTER);
        if (to) {
            fprintf(to, "<text class=\"verdict\" x=\"12\" y=\"%.0f\">", y);
            picture_letters(to, text, len);
            fprintf(to, "</text>\n");
        }
        y += LINE;
        text += len;
        while (*text == ' ') text++;
    }
    return y;
}

/* What the lines mean: a sample of each look that occurs. */
static void key(FILE *to, const struct picture *p, double y) {
    int used[LOOKS] = {0}, look;
    double x = 12;
    size_t i;
    for (i = table_next(p->t, 0); i <= p->t->m; i = table_next(p->t, i))
        used[picture_look(p, i)] = 1;
    for (look = 0; look < LOOKS; look++)
        if (used[look]) {
            fprintf(to,
                    "<path class=\"%s\" d=\"M%.0f %.0fh%d\"/><text class=\"key\" x=\"%.0f\" "
                    "y=\"%.0f\">%s</text>\n",
                    STYLES[look].name, x, y - 4, SAMPLE, x + SAMPLE + 6, y, STYLES[look].says);
            x += SAMPLE + 18 + (double)strlen(STYLES[look].says) * LETTER;
        }
}

size_t picture_label(char *text, size_t room, const struct table *t, size_t i) {
    char price[FIGURES];
    return (size_t)snprintf(text, room, "%zu: %s", i, table_price(price, t, i));
}

size_t picture_place(struct layout *l, const struct picture *p) {
    char text[2 * FIGURES];
    size_t i, left_out = 0;
    int look;
    layout_sheet(l, p->t);
    for (i = table_next(p->t, 0); i <= p->t->m; i = table_next(p->t, i))
        l->trench[i - 1].heavy = picture_look(p, i) != OTHER;
    for (look = LOOKS - 1; look >= 0; look--)
        for (i = table_next(p->t, 0); i <= p->t->m; i = table_next(p->t, i))
            if ((int)picture_look(p, i) == look) {
                layout_label(l, p->t, i, picture_label(text, sizeof text, p->t, i));
                left_out += !l->label[i - 1].shown;
            }
    return left_out;
}

static void trenches(FILE *to, const struct picture *p, const struct layout *l) {
    const struct table *t = p->t;
    char price[FIGURES];
    size_t i;
    int look;
    for (look = 0; look < LOOKS; look++)
        for (i = table_next(t, 0); i <= t->m; i = table_next(t, i)) {
            const struct curve *c = &l->trench[i - 1];
            struct message ends = {{0}, 0};
            if ((int)picture_look(p, i) != look) continue;
            say_ends(&ends, t, i);
            fprintf(
                to, "<path class=\"%s\" d=\"M%.1f %.1fQ%.1f %.1f %.1f %.1f\"><title>trench %zu: ",
                STYLES[look].name, c->from.x, c->from.y, c->bend.x, c->bend.y, c->to.x, c->to.y, i);
            picture_letters(to, ends.text, ends.len);
            fprintf(to, ", price %s, %s</title></path>\n", table_price(price, t, i),
                    STYLES[look].says);
        }
}

void picture_junction(FILE *to, const struct layout *l, const struct table *t, uint32_t v) {
    struct message name = {{0}, 0}, whole = {{0}, 0};
    struct point at = l->at[v];
    fprintf(to, "<circle cx=\"%.1f\" cy=\"%.1f\" r=\"%.0f\"/>", at.x, at.y, l->dot);
    if (!l->name[v].shown) {
        fprintf(to, "<text class=\"name\" x=\"%.1f\" y=\"%.1f\">%u</text>", at.x,
                at.y + l->dot * 0.33, (unsigned)v);
        return;
    }
    layout_name(&name, t, v);
    say_junction(&whole, t, v);
    fprintf(to, "<text class=\"place\" x=\"%.1f\" y=\"%.1f\"><title>", at.x,
            l->name[v].at.y + LABEL_FONT * 0.36);
    picture_letters(to, whole.text, whole.len);
    fputs("</title>", to);
    picture_letters(to, name.text, name.len);
    fputs("</text>", to);
}

static void labels(FILE *to, const struct picture *p, const struct layout *l) {
    char text[2 * FIGURES];
    size_t i;
    for (i = table_next(p->t, 0); i <= p->t->m; i = table_next(p->t, i)) {
        const struct label *own = &l->label[i - 1];
        if (!own->shown) continue;
        picture_label(text, sizeof text, p->t, i);
        fprintf(to, "<rect class=\"ground\" x=\"%.1f\" y=\"%.1f\" width=\"%.1f\" height=\"%d\"/>",
                own->at.x - own->width / 2, own->at.y - LABEL_HEIGHT / 2.0, own->width,
                LABEL_HEIGHT);
        fprintf(to, "<text class=\"label %s-label\" x=\"%.1f\" y=\"%.1f\">%s</text>\n",
                STYLES[picture_look(p, i)].name, own->at.x, own->at.y + LABEL_FONT * 0.36, text);
    }
}

static void head(FILE *to, const char *title, double width, double height, double dot, int names) {
    int k;
    fprintf(to,
            "<svg xmlns=\"http://www.w3.org/2000/svg\" width=\"%.0f\" height=\"%.0f\" viewBox=\"0 "
            "0 %.0f %.0f\">\n<title>",
            width, height, width, height);
    picture_letters(to, title, strlen(title));
    fprintf(to, "</title>\n<style>path{fill:none;stroke-linecap:round}");
    for (k = 0; k < LOOKS; k++)
        fprintf(to, ".%s{stroke:%s;stroke-width:%s}.%s-label{fill:%s}", STYLES[k].name,
                STYLES[k].colour, STYLES[k].width, STYLES[k].name,
                k == OTHER ? "#555" : STYLES[k].colour);
    fprintf(
        to,
        ".out{stroke-dasharray:9 "
        "8}circle{fill:#fff;stroke:#222;stroke-width:1.5}.ground{fill:#fff;fill-opacity:.9}."
        "refused{fill:#fdecea;stroke:#b3261e;stroke-width:2}"
        "text{font-family:Arial,'Liberation "
        "Sans',sans-serif}.verdict{font-size:14px;font-weight:bold}.key{font-size:12px;fill:#444}"
        ".name{font-size:%.0fpx;text-anchor:middle}.label{font-size:%dpx;text-anchor:middle}"
        ".marked-label,.out-label,.in-label{font-weight:bold}%s</style>\n<rect width=\"100%%\" "
        "height=\"100%%\" fill=\"#fff\"/>\n",
        dot * 0.95, LABEL_FONT, names ? PICTURE_NAMES : "");
}

void picture_svg(FILE *to, const struct picture *p) {
    static struct layout l;
    const char *words = p->words.text;
    size_t left_out;
    double y, wide; /* words in a box keep away from its side */
    uint32_t v;
    left_out = picture_place(&l, p);
    y = l.height + LINE;
    wide = l.width - (p->refused ? BESIDE : 0);
    head(to, words, l.width, verdict(NULL, words, wide, y) + 2 * LINE + (p->refused ? 5 : 0), l.dot,
         p->t->names > 0);
    trenches(to, p, &l);
    labels(to, p, &l);
    for (v = 1; v <= p->t->n; v++) {
        picture_junction(to, &l, p->t, v);
        putc('\n', to);
    }
    if (p->refused)
        fprintf(to, "<rect class=\"refused\" x=\"5\" y=\"%.0f\" width=\"%.0f\" height=\"%.0f\"/>\n",
                y - LINE + 2, l.width - 10, verdict(NULL, words, wide, y) - y + 5);
    y = verdict(to, words, wide, y) + (p->refused ? 5 : 0);
    key(to, p, y);
    fprintf(
        to,
        "<text class=\"key\" x=\"12\" y=\"%.0f\">A label has the trench's number and its price.",
        y + LINE);
    if (left_out > 0)
        fprintf(to, " %zu of %zu found no room: 'star table' lists every trench in order.",
                left_out, table_used(p->t));
    fprintf(to, "</text>\n</svg>\n");
}
