/* The console's commands on one text: its first line is the command line, whose words are parted
 * by single spaces; behind it stands the file plan, up to a byte 0, and the file other behind that.
 * The console runs in this process, in a temporary folder: a '/' in a word becomes '_', so that no
 * word names a file elsewhere. libFuzzer calls it with texts of its own, replay.c with those of the
 * corpus; abort() ends a run in which the console did what it must not. */
#include <stdio.h>
#include <stdlib.h>
#include <string.h>

#include "../../console/status.h"
#include "folder.h"
#include "json_text.h"
#include "star.h"

int LLVMFuzzerTestOneInput(const uint8_t *data, size_t size);
int star_main(int count, char **words);

enum { WORDS = 40, LINE = 4096 };

struct line {
    char text[LINE];
    char *words[WORDS + 1];
    char *given[WORDS + 1]; /* the same, for the console, which moves them */
    int count;
};

/* The variables of the console, which are all 0 when a program starts. Between them stand bytes
 * that the checks of memory guard, which memset would be told about. */
extern uint64_t __start_star_variables[];
extern uint8_t __stop_star_variables[];

__attribute__((no_sanitize_address)) static void variables_cleared(void) {
    volatile uint64_t *word = __start_star_variables;
    volatile uint8_t *byte;
    for (; (volatile uint8_t *)(word + 1) <= __stop_star_variables; word++) *word = 0;
    for (byte = (volatile uint8_t *)word; byte < __stop_star_variables; byte++) *byte = 0;
}

static void holds(int said, const char *what) {
    if (said) return;
    fprintf(stderr, "\ncommands: %s\n", what);
    abort();
}

static void words_of(struct bytes line, struct line *l) {
    static char program[] = "star";
    size_t k;
    memset(l, 0, sizeof *l);
    if (line.len >= LINE) line.len = LINE - 1;
    memcpy(l->text, line.at, line.len);
    l->words[l->count++] = program;
    if (line.len > 0) l->words[l->count++] = l->text;
    for (k = 0; k < line.len; k++) {
        if (l->text[k] == '/') l->text[k] = '_';
        if (l->text[k] != ' ') continue;
        l->text[k] = '\0';
        if (l->count < WORDS) l->words[l->count++] = l->text + k + 1;
    }
    memcpy(l->given, l->words, sizeof l->words);
}

/* Bytes up to a mark, which is left out; what follows it stays in the rest. */
static struct bytes cut(struct bytes *rest, int mark) {
    struct bytes first = *rest;
    const uint8_t *found = memchr(rest->at, mark, rest->len);
    if (found) first.len = (size_t)(found - rest->at);
    rest->at += first.len + (found != NULL);
    rest->len -= first.len + (found != NULL);
    return first;
}

/* Whether some word opens with these letters. */
static int has(const struct line *l, const char *letters) {
    int k;
    for (k = 2; k < l->count; k++)
        if (strncmp(l->words[k], letters, strlen(letters)) == 0) return 1;
    return 0;
}

/* Whether the result of a command that passes is a table. */
static int gives_table(const struct line *l) {
    static const char *const names[] = {"table", "strike", "add",   "merge", "unstrike",
                                        "mark",  "unmark", "price", "mend"};
    size_t k;
    if (l->count < 2 || has(l, "-h") || has(l, "--h")) return 0;
    for (k = 0; k < sizeof names / sizeof names[0]; k++)
        if (strcmp(l->words[1], names[k]) == 0) return 1;
    return 0;
}

static int is_table(struct bytes text) {
    static struct star_table table;
    return star_table_read(&table, (const char *)text.at, text.len).kind == STAR_PASSED;
}

static void look(const struct line *l, int status, const struct left *left) {
    holds(status >= EXIT_PASSED && status <= EXIT_UNWRITTEN, "a status of no meaning");
    holds(left->changes <= (has(l, "-o") && status <= EXIT_REFUSED), "files that are changed");
    if (left->said.len > 0 && left->said.at[0] == '{') holds(json_sound(left->said), "no JSON");
    if (status != EXIT_PASSED || !gives_table(l)) return;
    if (left->changes > 0) holds(is_table(left->changed), "a file that is no table");
    else if (!has(l, "-o")) holds(is_table(left->said), "an output that is no table");
}

/* For the controls: changes what the console left. */
static void damage(const char *control, int *status, struct left *left) {
    static const struct bytes no_table = {(const uint8_t *)"1 2", 3};
    if (!strcmp(control, "status")) *status = EXIT_UNWRITTEN + 1;
    if (!strcmp(control, "file")) left->changes++;
    if (!strcmp(control, "json") && left->said.len > 1) left->said.len -= 2;
    if (!strcmp(control, "table")) left->said = no_table;
}

int LLVMFuzzerTestOneInput(const uint8_t *data, size_t size) {
    static struct line l;
    struct bytes rest = {data, size}, plan;
    struct left left;
    int status;
    if (size == 0) return 0;
    words_of(cut(&rest, '\n'), &l);
    plan = cut(&rest, '\0');
    folder_fill(plan, rest);
    variables_cleared();
    status = star_main(l.count, l.given);
    left = folder_look(plan, rest);
    if (getenv("CONTROL")) damage(getenv("CONTROL"), &status, &left);
    look(&l, status, &left);
    return 0;
}
