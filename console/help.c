/* Writes the help. */
#include "help.h"

#include <string.h>

enum { WIDE = 80, FIRST_COLUMN = 34 };

static const char NOTES[] =
    "\n"
    "star COMMAND --help says more, with an example; star --version, the version.\n"
    "\n"
    "-o OUTPUT replaces a file as a whole, or leaves it as it was. Standard input is\n"
    "read where FILE is -, or is left out and there is no -o.\n"
    "FILE has a line a trench: two junctions, a price, and a mark, 1 for a trench of\n"
    "the plan and 0 for any other. Trenches are counted from 1 in this order.\n"
    "Junctions are numbers or names; blanks, tabs, commas or semicolons part the\n"
    "fields, as spreadsheets save them. A line that opens with 'struck' has a trench\n"
    "that is left out; 'junctions N' says how many junctions there are; # opens a\n"
    "comment. At most 255 junctions and 1024 trenches are taken, prices from\n"
    "-2147483648 to 2147483647. An STP file of SteinLib is taken too where no plan\n"
    "is needed.\n"
    "\n"
    "Status: 0 done, 1 a cheaper set exists, 2 refused, 3 the input could not be\n"
    "read, 4 wrong usage, 5 the output could not be written.\n";

/* Writes one paragraph from a column on, on lines of at most WIDE columns, and gives where the next
   one begins. */
static const char *paragraph(FILE *to, const char *text, size_t len, size_t indent) {
    const char *end = text + len;
    size_t column = indent;
    while (text < end && *text != '\n') {
        size_t word = 0;
        while (text + word < end && text[word] != ' ' && text[word] != '\n') word++;
        if (column > indent && column + 1 + word > WIDE) {
            fprintf(to, "\n%*s", (int)indent, "");
            column = indent;
        } else if (column > indent) {
            putc(' ', to);
            column++;
        }
        fwrite(text, 1, word, to);
        column += word;
        text += word;
        while (text < end && *text == ' ') text++;
    }
    putc('\n', to);
    while (text < end && *text == '\n') text++;
    return text;
}

/* Lines as they are, with blanks before each. */
static void lines(FILE *to, const char *text) {
    while (*text) {
        size_t len = strcspn(text, "\n");
        fprintf(to, "    %.*s\n", (int)len, text);
        text += len + (text[len] == '\n');
    }
}

void help_all(FILE *to) {
    const struct page *p;
    fputs("usage: star COMMAND [WORDS..]      a planner's console for heating networks\n\n", to);
    for (p = PAGES; p->name; p++) {
        int len = fprintf(to, "  %s %s", p->name, p->words);
        fprintf(to, "%*s%s\n", FIRST_COLUMN - len, "", p->line);
    }
    fputs(NOTES, to);
}

static void operands(FILE *to, const struct page *p) {
    const struct operand *o;
    fputs("\nWords:\n", to);
    for (o = OPERANDS; o->name; o++)
        if (page_takes(p, o->name)) fprintf(to, "    %-10s%s\n", o->name, o->is);
}

static void options(FILE *to, const struct page *p) {
    const struct option *o;
    fputs("\nOptions:\n", to);
    for (o = OPTIONS; o->name; o++)
        if (page_has(p, o->name)) {
            int len = fprintf(to, "    %s %s", o->name, o->value);
            fprintf(to, "%*s%s\n", 20 - len, "", o->does);
        }
}

static void statuses(FILE *to, const struct page *p) {
    const char *text;
    int status;
    fputs("\nStatus:\n", to);
    for (status = 0; status < STATUSES; status++) {
        size_t len = page_status(p, status, &text);
        if (len == 0) continue;
        fprintf(to, "    %d ", status);
        paragraph(to, text, len, 6);
    }
}

/* Lines 'NAME words', the words of a line that is too long below each other. */
static void keys(FILE *to, const char *text) {
    while (*text) {
        fputs("    ", to);
        text = paragraph(to, text, strlen(text), 6);
    }
}

void help_of(FILE *to, const struct page *p) {
    const char *text = p->does;
    const struct option *o;
    fprintf(to, "usage: star %s", p->name);
    for (o = OPTIONS; o->name; o++)
        if (page_has(p, o->name) && strcmp(o->name, "--help") != 0)
            fprintf(to, " [%s%s%s]", o->name, o->value[0] ? " " : "", o->value);
    fprintf(to, " %s\n", p->words);
    while (*text) {
        putc('\n', to);
        text = paragraph(to, text, strlen(text), 0);
    }
    operands(to, p);
    options(to, p);
    fprintf(to, "\nExample:\n    $ star %s\n", p->example);
    lines(to, p->output);
    statuses(to, p);
    if (!p->keys) return;
    fputs("\nKeys of --json, beside command, file, verdict and status:\n", to);
    keys(to, p->keys);
}
