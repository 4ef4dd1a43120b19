/* Parts a line of a table file. */
#include "fields.h"

#include <string.h>

static int has(struct span s, char c) { return s.len > 0 && memchr(s.at, c, s.len) != NULL; }

static int blank(char c) { return c == ' ' || c == '\t'; }

static struct span trimmed(struct span s) {
    while (s.len > 0 && blank(s.at[0])) {
        s.at++;
        s.len--;
    }
    while (s.len > 0 && blank(s.at[s.len - 1])) s.len--;
    return s;
}

struct span fields_content(struct span line) {
    const char *end = line.len > 0 ? memchr(line.at, '#', line.len) : NULL;
    if (end) line.len = (size_t)(end - line.at);
    return trimmed(line);
}

static struct span unquoted(struct span s) {
    if (s.len < 2 || s.at[0] != '"' || s.at[s.len - 1] != '"') return s;
    s.at++;
    s.len -= 2;
    return trimmed(s);
}

static char separator(struct span content) {
    if (has(content, ';')) return ';';
    if (has(content, '\t')) return '\t';
    return has(content, ',') ? ',' : ' ';
}

/* Counts a field, and keeps it if there is room. */
static void take(struct fields *f, struct span piece, size_t *seen) {
    struct span whole = trimmed(piece), bare = unquoted(whole);
    if (f->by == ' ' && bare.len == 0) return;
    if (*seen < FIELDS) {
        f->whole[*seen] = whole;
        f->bare[*seen] = bare;
        f->kept = *seen + 1;
    }
    ++*seen;
    if (bare.len > 0) f->count = *seen;
}

struct fields fields_of(struct span content) {
    struct fields f;
    size_t k, seen = 0;
    memset(&f, 0, sizeof f);
    f.by = separator(content);
    for (;;) {
        struct span piece = content;
        for (k = 0; k < content.len && content.at[k] != f.by;) k++;
        piece.len = k;
        take(&f, piece, &seen);
        if (k == content.len) return f;
        content.at += k + 1;
        content.len -= k + 1;
    }
}

/* Whether a separator parts fields with these bytes, and nothing in them does. */
static int parts(char by, struct span s) {
    if (has(s, '#') || has(s, '"') || has(s, ';')) return 0;
    if (by == ';') return 1;
    if (has(s, '\t')) return 0;
    if (by == '\t') return 1;
    return !has(s, ',') && (by == ',' || !has(s, ' '));
}

char fields_part(struct span one, struct span other, char first) {
    const char *by = ";\t, ";
    if (parts(first, one) && parts(first, other)) return first;
    while (*by && !(parts(*by, one) && parts(*by, other))) by++;
    return *by;
}

const char *fields_parted(char by) {
    return by == ';' ? "a semicolon" : by == '\t' ? "a tab" : by == ',' ? "a comma" : "a blank";
}

const char *fields_parts(char by) {
    return by == ';' ? "semicolons" : by == '\t' ? "tabs" : by == ',' ? "commas" : "blanks";
}
