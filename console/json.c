/* Writes JSON. */
#include "json.h"

#include <inttypes.h>
#include <string.h>

#include "faults.h"
#include "refusal.h"
#include "status.h"

/* A text in quotation marks; bytes that are no UTF-8 stand as U+FFFD. */
static void quoted(FILE *to, struct span s) {
    size_t len;
    putc('"', to);
    for (; s.len > 0; s.at += len, s.len -= len) {
        unsigned char first = (unsigned char)s.at[0];
        len = text_letter(s);
        if (len == 0) fputs("\\ufffd", to);
        else if (first == '"' || first == '\\') fprintf(to, "\\%c", first);
        else if (first == '\n') fputs("\\n", to);
        else if (first < 0x20 || first == 0x7f) fprintf(to, "\\u%04x", (unsigned)first);
        else fwrite(s.at, 1, len, to);
        if (len == 0) len = 1;
    }
    putc('"', to);
}

static struct span words(const char *text) {
    struct span s = {text, strlen(text)};
    return s;
}

static void key_of(struct json *j, const char *key) {
    if (j->any) fputs(", ", j->to);
    j->any = 1;
    if (!key) return;
    quoted(j->to, words(key));
    fputs(": ", j->to);
}

void json_open(struct json *j, const char *key, char bracket) {
    key_of(j, key);
    putc(bracket, j->to);
    j->any = 0;
}

void json_close(struct json *j, char bracket) {
    putc(bracket, j->to);
    j->any = 1;
}

void json_text(struct json *j, const char *key, const char *text) {
    key_of(j, key);
    quoted(j->to, words(text));
}

void json_number(struct json *j, const char *key, int64_t number) {
    key_of(j, key);
    fprintf(j->to, "%" PRId64, number);
}

void json_truth(struct json *j, const char *key, int truth) {
    key_of(j, key);
    fputs(truth ? "true" : "false", j->to);
}

void json_numbers(struct json *j, const char *key, const unsigned *numbers, size_t count) {
    size_t k;
    json_open(j, key, '[');
    for (k = 0; k < count; k++) json_number(j, NULL, numbers[k]);
    json_close(j, ']');
}

void json_trench_open(struct json *j, const char *key, const struct table *t, size_t i) {
    json_open(j, key, '{');
    json_number(j, "trench", (int64_t)i);
    json_number(j, "left", t->left[i - 1]);
    json_number(j, "right", t->right[i - 1]);
    json_number(j, "price", table_cost(t, i));
    if (t->row[i - 1].line > 0) json_number(j, "line", (int64_t)t->row[i - 1].line);
}

void json_trench(struct json *j, const char *key, const struct table *t, size_t i) {
    json_trench_open(j, key, t, i);
    json_close(j, '}');
}

void json_rows(struct json *j, const char *key, const struct table *t, const uint8_t *mark,
               size_t from, size_t last) {
    size_t i;
    json_open(j, key, '[');
    for (i = table_next(t, from - 1); i <= last && i <= t->m; i = table_next(t, i))
        if (mark[i - 1] == 1) json_trench(j, NULL, t, i);
    json_close(j, ']');
}

/* The names of the junctions in the order of their numbers; nothing where the file has none. */
static void json_names(struct json *j, const struct table *t) {
    size_t v;
    if (t->names == 0) return;
    json_open(j, "names", '[');
    for (v = 0; v < t->names; v++) {
        key_of(j, NULL);
        quoted(j->to, t->name[v]);
    }
    json_close(j, ']');
}

void json_begin(struct json *j, FILE *to, const struct options *with, const char *verdict,
                int status) {
    j->to = to;
    j->any = 0;
    json_open(j, NULL, '{');
    json_text(j, "command", with->command);
    json_text(j, "file", with->file);
    json_text(j, "verdict", verdict);
    json_number(j, "status", status);
    if (with->read) json_names(j, with->read);
}

void json_end(struct json *j) {
    json_close(j, '}');
    putc('\n', j->to);
}

void json_refusal(struct json *j, const char *words) {
    struct refusal last = refusal_last();
    json_number(j, "refusal", last.number);
    if (last.place > 0) json_number(j, "place", last.place);
    if (last.line > 0) json_number(j, "line", (int64_t)last.line);
    json_text(j, "words", words);
}

void json_fault(FILE *to, const struct options *with, int status, const char *words) {
    static const char *const verdicts[] = {
        [EXIT_REFUSED] = "refused", [EXIT_UNREADABLE] = "unreadable", [EXIT_USAGE] = "misused"};
    struct json j;
    json_begin(&j, to, with, verdicts[status], status);
    if (status == EXIT_REFUSED) json_refusal(&j, words);
    else json_text(&j, "words", words);
    json_end(&j);
}

int json_beside(struct json *j, struct output *own, const struct options *with,
                const char *verdict) {
    struct output standard = {0};
    FILE *to;
    *own = standard;
    to = output_open(own);
    if (to) json_begin(j, to, with, verdict, EXIT_PASSED);
    return to != NULL;
}

int json_beside_end(struct json *j, struct output *own) {
    json_end(j);
    return output_close(own) ? EXIT_PASSED : EXIT_UNWRITTEN;
}

int tell_refused(struct output *o, const struct options *with, const struct message *words) {
    FILE *to;
    if (with->table) {
        fault_tell(words);
        return EXIT_REFUSED;
    }
    to = output_open(o);
    if (!to) return EXIT_UNWRITTEN;
    if (with->json) json_fault(to, with, EXIT_REFUSED, words->text);
    else fprintf(to, "%s\n", words->text);
    return EXIT_REFUSED;
}
