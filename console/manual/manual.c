/* Writes a text, standard input to standard output, with those of its sections that are made from
   the table of commands made anew. Such a section stands between a line that has 'made by make
   manual: NAME' and one that has 'end of NAME'. */
#include <ctype.h>
#include <stdio.h>
#include <string.h>

#include "pages.h"

enum { LINE = 4096 };

/* Letters as roff has them. */
static void roff_letters(const char *text, size_t len) {
    for (; len > 0; text++, len--)
        if (*text == '-') fputs("\\-", stdout);
        else if (*text == '\\') fputs("\\e", stdout);
        else if (*text == '\'') fputs("\\(aq", stdout);
        else putchar(*text);
}

static int is(const char *word, size_t len, const char *name) {
    return strlen(name) == len && memcmp(word, name, len) == 0;
}

/* The font of a word: italics for what is put in place of it, bold for an option. */
static char font(const char *word, size_t len) {
    const struct operand *w;
    const struct option *o;
    for (w = OPERANDS; w->name; w++)
        if (is(word, len, w->name)) return 'I';
    for (o = OPTIONS; o->name; o++)
        if (is(word, len, o->name)) return 'B';
    return 'R';
}

/* One word; what stands before and after its letters has no font of its own. */
static void roff_word(const char *word, size_t len) {
    size_t open = 0, own = 0;
    char f;
    while (open < len && word[open] == '[') open++;
    roff_letters(word, open);
    word += open;
    len -= open;
    while (own < len && (word[own] == '-' || isalnum((unsigned char)word[own]))) own++;
    f = font(word, own);
    if (f != 'R') printf("\\f%c", f);
    roff_letters(word, own);
    if (f != 'R') fputs("\\fP", stdout);
    roff_letters(word + own, len - own);
}

/* The words of a text, a sentence a line; its paragraphs are parted. */
static void roff_text(const char *text, size_t len) {
    const char *end = text + len;
    while (text < end) {
        size_t word = strcspn(text, " \n");
        if (word > (size_t)(end - text)) word = (size_t)(end - text);
        roff_word(text, word);
        text += word;
        if (text >= end) break;
        if (*text == '\n') fputs("\n.sp\n", stdout);
        else putchar(word > 0 && text[-1] == '.' ? '\n' : ' ');
        while (text < end && (*text == ' ' || *text == '\n')) text++;
    }
    putchar('\n');
}

static void roff_synopsis(void) {
    const struct page *p;
    const struct option *o;
    for (p = PAGES; p->name; p++) {
        printf(".B star %s\n", p->name);
        for (o = OPTIONS; o->name; o++) {
            if (!page_has(p, o->name) || strcmp(o->name, "--help") == 0) continue;
            putchar('[');
            roff_word(o->name, strlen(o->name));
            if (o->value[0]) {
                putchar(' ');
                roff_word(o->value, strlen(o->value));
            }
            fputs("]\n", stdout);
        }
        roff_text(p->words, strlen(p->words));
        puts(".br");
    }
    puts(".B star \\-\\-help\n|\n.B \\-\\-version");
}

static void roff_commands(void) {
    const struct page *p;
    for (p = PAGES; p->name; p++) {
        printf(".TP\n.B %s\n", p->name);
        roff_text(p->does, strlen(p->does));
    }
}

static void roff_operands(void) {
    const struct operand *o;
    for (o = OPERANDS; o->name; o++) {
        printf(".TP\n.I %s\n", o->name);
        roff_text(o->is, strlen(o->is));
    }
}

static void roff_options(void) {
    const struct option *o;
    for (o = OPTIONS; o->name; o++) {
        puts(".TP");
        roff_word(o->name, strlen(o->name));
        if (o->value[0]) {
            putchar(' ');
            roff_word(o->value, strlen(o->value));
        }
        putchar('\n');
        roff_text(o->does, strlen(o->does));
    }
}

/* Whether a command before this one ends with the status and says the same of it. */
static int said_before(const struct page *p, int status, const char *text, size_t len) {
    const struct page *q;
    const char *other;
    for (q = PAGES; q < p; q++)
        if (page_status(q, status, &other) == len && memcmp(other, text, len) == 0) return 1;
    return 0;
}

/* What a status says of each command, those of which it says the same together. */
static void roff_status(int status) {
    const struct page *p, *q;
    const char *text, *other;
    size_t len;
    printf(".TP\n.B %d\n", status);
    if (status > 2) {
        roff_letters(STATUS_TEXT[status], strlen(STATUS_TEXT[status]));
        puts("\n.br");
    }
    for (p = PAGES; p->name; p++) {
        len = page_status(p, status, &text);
        if (len == 0 || text == STATUS_TEXT[status] || said_before(p, status, text, len)) continue;
        printf("\\fB%s\\fP", p->name);
        for (q = p + 1; q->name; q++)
            if (page_status(q, status, &other) == len && memcmp(other, text, len) == 0)
                printf(", \\fB%s\\fP", q->name);
        fputs(": ", stdout);
        roff_letters(text, len);
        puts("\n.br");
    }
}

static void roff_statuses(void) {
    int status;
    for (status = 0; status < STATUSES; status++) roff_status(status);
}

/* Lines of keys, each key bold. */
static void roff_keys(const char *name, const char *lines) {
    printf(".TP\n.B %s\n", name);
    while (*lines) {
        size_t len = strcspn(lines, "\n"), key = strcspn(lines, ":");
        fputs("\\fB", stdout);
        roff_letters(lines, key);
        fputs("\\fP", stdout);
        roff_letters(lines + key, len - key);
        puts("\n.br");
        lines += len + (lines[len] == '\n');
    }
}

static void roff_objects(void) {
    const struct keys *k;
    const struct page *p;
    for (k = KEYS; k->name; k++) roff_keys(k->name, k->lines);
    for (p = PAGES; p->name; p++)
        if (p->keys) roff_keys(p->name, p->keys);
}

static void roff_examples(void) {
    const struct page *p;
    puts(".nf");
    for (p = PAGES; p->name; p++) {
        fputs("star ", stdout);
        roff_letters(p->example, strlen(p->example));
        putchar('\n');
    }
    puts(".fi");
}

static void markdown_list(void) {
    const struct page *p;
    putchar('\n');
    for (p = PAGES; p->name; p++) {
        int len = printf("    star %s %s", p->name, p->words);
        printf("%*s%s\n", 42 - len, "", p->line);
    }
    putchar('\n');
}

static void markdown_statuses(void) {
    int status;
    puts("\n| Exit status | |\n|---|---|");
    for (status = 0; status < STATUSES; status++)
        printf("| %d | %s |\n", status, STATUS_TEXT[status]);
    putchar('\n');
}

static const struct section {
    const char *name;
    void (*write)(void);
} SECTIONS[] = {
    {"synopsis", roff_synopsis},
    {"commands", roff_commands},
    {"words", roff_operands},
    {"options", roff_options},
    {"statuses", roff_statuses},
    {"examples", roff_examples},
    {"objects", roff_objects},
    {"list of commands", markdown_list},
    {"table of statuses", markdown_statuses},
};

/* The section that a line opens, NULL for none. */
static const struct section *opened(const char *line) {
    const char *at = strstr(line, "made by make manual: ");
    size_t i;
    if (!at) return NULL;
    at += strlen("made by make manual: ");
    for (i = 0; i < sizeof SECTIONS / sizeof SECTIONS[0]; i++)
        if (strncmp(at, SECTIONS[i].name, strlen(SECTIONS[i].name)) == 0) return &SECTIONS[i];
    return NULL;
}

static int closes(const char *line, const struct section *s) {
    const char *at = strstr(line, "end of ");
    return at && strncmp(at + strlen("end of "), s->name, strlen(s->name)) == 0;
}

int main(void) {
    static char line[LINE];
    const struct section *s = NULL;
    while (fgets(line, sizeof line, stdin)) {
        if (s && closes(line, s)) s = NULL;
        else if (s) continue;
        fputs(line, stdout);
        if (s) continue;
        s = opened(line);
        if (s) s->write();
    }
    if (s) fprintf(stderr, "manual: no line 'end of %s'\n", s->name);
    return s || ferror(stdout) || fflush(stdout) != 0;
}
