#include "json_text.h"

#include <string.h>

static const uint8_t *at, *end;

static int value(int depth);

static int next_is(int c) { return at < end && *at == c; }

static int take(int c) { return next_is(c) ? (at++, 1) : 0; }

static int word(const char *letters) {
    for (; *letters; letters++)
        if (!take(*letters)) return 0;
    return 1;
}

static void space(void) {
    while (at < end && *at && strchr(" \t\r\n", *at)) at++;
}

static int digits(void) {
    const uint8_t *from = at;
    while (at < end && *at >= '0' && *at <= '9') at++;
    return at > from;
}

static int number(void) {
    take('-');
    if (!take('0') && !digits()) return 0;
    if (take('.') && !digits()) return 0;
    if (!take('e') && !take('E')) return 1;
    if (!take('-')) take('+');
    return digits();
}

static int escape(void) {
    int k;
    if (at == end) return 0;
    if (*at != 'u') return *at && strchr("\"\\/bfnrt", *at++) != NULL;
    at++;
    for (k = 0; k < 4; k++, at++)
        if (at == end || !*at || !strchr("0123456789abcdefABCDEF", *at)) return 0;
    return 1;
}

/* A character above ASCII: its shortest form, no surrogate, and not above U+10FFFF. */
static int character(void) {
    unsigned first = *at++, more = 1 + (first >= 0xE0) + (first >= 0xF0);
    unsigned long code = first & (0x3Fu >> more);
    static const unsigned long least[] = {0, 0x80, 0x800, 0x10000};
    unsigned k;
    if (first < 0xC2 || first > 0xF4) return 0;
    for (k = 0; k < more; k++, at++) {
        if (at == end || (*at & 0xC0) != 0x80) return 0;
        code = code << 6 | (*at & 0x3Fu);
    }
    return code >= least[more] && code <= 0x10FFFF && (code < 0xD800 || code > 0xDFFF);
}

static int string(void) {
    if (!take('"')) return 0;
    while (at < end && *at != '"') {
        int good = 1;
        if (*at >= 0x80) good = character();
        else if (take('\\')) good = escape();
        else if (*at++ < 0x20) good = 0;
        if (!good) return 0;
    }
    return take('"');
}

/* What stands between brackets. */
static int members(int close, int depth) {
    at++;
    space();
    if (take(close)) return 1;
    do {
        space();
        if (close == '}') {
            if (!string()) return 0;
            space();
            if (!take(':')) return 0;
        }
        if (!value(depth)) return 0;
    } while (take(','));
    return take(close);
}

static int value(int depth) {
    int good = 0;
    space();
    if (at == end || depth > 20) return 0;
    if (*at == '{') good = members('}', depth + 1);
    else if (*at == '[') good = members(']', depth + 1);
    else if (*at == '"') good = string();
    else if (*at == 't') good = word("true");
    else if (*at == 'f') good = word("false");
    else if (*at == 'n') good = word("null");
    else good = number();
    space();
    return good;
}

int json_sound(struct bytes text) {
    at = text.at;
    end = text.at + text.len;
    return text.len > 0 && end[-1] == '\n' && value(0) && at == end;
}
