/* Writes a network for Graphviz. */
#include "picture.h"

static void quoted(FILE *to, const char *text) {
    putc('"', to);
    for (; *text; text++) {
        if (*text == '"' || *text == '\\') putc('\\', to);
        putc(*text, to);
    }
    putc('"', to);
}

void picture_dot(FILE *to, const struct picture *p) {
    const struct table *t = p->t;
    char price[FIGURES];
    uint32_t v;
    size_t i;
    fprintf(to, "graph network {\n  label=");
    quoted(to, p->words.text);
    fprintf(to, ";\n  overlap=false;\n  fontname=Arial;\n  node [shape=circle, width=0.35, "
                "fixedsize=true, fontname=Arial, fontsize=11];\n"
                "  edge [fontname=Arial, fontsize=10, len=1.6];\n");
    for (v = 1; v <= t->n; v++) {
        struct message name = {{0}, 0};
        say_junction(&name, t, v);
        fprintf(to, "  %u", (unsigned)v);
        if (v <= t->names) {
            fputs(" [shape=plaintext, fixedsize=false, label=", to);
            quoted(to, name.text);
            putc(']', to);
        }
        fputs(";\n", to);
    }
    for (i = table_next(t, 0); i <= t->m; i = table_next(t, i)) {
        enum look look = picture_look(p, i);
        fprintf(to,
                "  %u -- %u [label=\"%zu: %s\", color=\"%s\", fontcolor=\"%s\", penwidth=%s%s];\n",
                t->left[i - 1], t->right[i - 1], i, table_price(price, t, i), STYLES[look].colour,
                look == OTHER ? "#555555" : STYLES[look].colour, STYLES[look].width,
                look == TAKE_OUT ? ", style=dashed" : "");
    }
    fprintf(to, "}\n");
}
