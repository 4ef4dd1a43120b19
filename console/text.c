/* Lines, words and numbers of a text, and messages. */
#include "text.h"

#include <stdarg.h>
#include <stdio.h>
#include <string.h>

enum { QUOTED = 40 };

static int blank(char c) { return c == ' ' || c == '\t' || c == '\n' || c == '\r'; }

int text_line(struct span *rest, struct span *line) {
    size_t k = 0;
    if (rest->len == 0) return 0;
    while (k < rest->len && rest->at[k] != '\n' && rest->at[k] != '\r') k++;
    line->at = rest->at;
    line->len = k;
    if (k + 1 < rest->len && rest->at[k] == '\r' && rest->at[k + 1] == '\n') k++;
    if (k < rest->len) k++;
    rest->at += k;
    rest->len -= k;
    return 1;
}

int text_word(struct span *rest, struct span *word) {
    size_t k = 0, start;
    while (k < rest->len && blank(rest->at[k])) k++;
    start = k;
    while (k < rest->len && !blank(rest->at[k])) k++;
    word->at = rest->at + start;
    word->len = k - start;
    rest->at += k;
    rest->len -= k;
    return word->len > 0;
}

struct span text_nth(struct span line, int k) {
    struct span word;
    int i;
    for (i = 0; i <= k; i++) text_word(&line, &word);
    return word;
}

static char capital(char c) { return c >= 'a' && c <= 'z' ? (char)(c - 'a' + 'A') : c; }

int text_alike(struct span one, struct span other) {
    size_t k = 0;
    if (one.len != other.len) return 0;
    while (k < one.len && capital(one.at[k]) == capital(other.at[k])) k++;
    return k == one.len;
}

int text_is(struct span word, const char *name) {
    struct span own = {name, strlen(name)};
    return text_alike(word, own);
}

int text_number(struct span word, uint32_t *value) {
    uint64_t x = 0;
    size_t k;
    for (k = 0; k < word.len; k++) {
        if (word.at[k] < '0' || word.at[k] > '9') return 0;
        x = x * 10 + (uint64_t)(word.at[k] - '0');
        if (x > UINT32_MAX) x = UINT32_MAX;
    }
    *value = (uint32_t)x;
    return word.len > 0;
}

void say(struct message *to, const char *format, ...) {
    va_list words;
    int more;
    va_start(words, format);
    more = vsnprintf(to->text + to->len, sizeof to->text - to->len, format, words);
    va_end(words);
    if (more > 0) to->len += (size_t)more;
    if (to->len >= sizeof to->text) to->len = sizeof to->text - 1;
}

void say_place(struct message *to, const char *file, size_t line) {
    if (!file) return;
    say(to, "%.200s:", file);
    if (line > 0) say(to, "%zu:", line);
    say(to, " ");
}

/* The bytes that a letter in UTF-8 has by its first one; 0 where no letter opens so. */
static size_t letter_opened(unsigned char first) {
    if (first < 0x80) return 1;
    if (first >= 0xc2 && first < 0xe0) return 2;
    if (first >= 0xe0 && first < 0xf0) return 3;
    return first >= 0xf0 && first < 0xf5 ? 4 : 0;
}

size_t text_letter(struct span s) {
    const unsigned char *at = (const unsigned char *)s.at;
    size_t len = s.len > 0 ? letter_opened(at[0]) : 0, k;
    if (len > s.len) return 0;
    for (k = 1; k < len; k++)
        if (at[k] < 0x80 || at[k] > 0xbf) return 0;
    if (len > 1 && ((at[0] == 0xe0 && at[1] < 0xa0) || (at[0] == 0xed && at[1] > 0x9f))) return 0;
    if (len > 1 && ((at[0] == 0xf0 && at[1] < 0x90) || (at[0] == 0xf4 && at[1] > 0x8f))) return 0;
    return len;
}

/* Whether a letter can be printed: none that controls a terminal, turns the direction of what
   follows (U+202A to U+202E, U+2066 to U+2069) or is no letter of a picture (U+FFFE, U+FFFF). */
static int printed(const char *at, size_t len) {
    const unsigned char *b = (const unsigned char *)at;
    if (len < 2) return len == 1 && b[0] >= ' ' && b[0] < 127;
    if (len == 2) return b[0] != 0xc2 || b[1] >= 0xa0;
    if (b[0] == 0xe2 && b[1] == 0x80) return b[2] < 0xaa || b[2] > 0xae;
    if (b[0] == 0xe2 && b[1] == 0x81) return b[2] < 0xa6 || b[2] > 0xa9;
    return b[0] != 0xef || b[1] != 0xbf || b[2] < 0xbe;
}

void say_word(struct message *to, struct span s) {
    size_t shown = 0, len;
    for (; s.len > 0 && shown < QUOTED; shown++, s.at += len, s.len -= len) {
        len = text_letter(s);
        if (s.at[0] == '\t') say(to, " ");
        else if (printed(s.at, len)) say(to, "%.*s", (int)len, s.at);
        else {
            len = 1;
            say(to, "\\x%02x", (unsigned)(unsigned char)s.at[0]);
        }
    }
    if (s.len > 0) say(to, "..");
}

void say_quoted(struct message *to, struct span s) {
    say(to, "'");
    say_word(to, s);
    say(to, "'");
}

void say_given(struct message *to, const char *word) {
    struct span s = {word, strlen(word)};
    say_word(to, s);
}

void say_count(struct message *to, size_t count, const char *one, const char *more) {
    say(to, "%zu %s", count, count == 1 ? one : more);
}
