/* Reads the coordinates in the section Coordinates of an STP text, for the picture alone: the lines
   'DD junction x y'. What stands there is not checked; a line that has no two numbers is
   skipped. */
#include "places.h"

struct words {
    const char *at, *end;
};

static int is_blank(char c) { return c == ' ' || c == '\t'; }
static int ends_line(char c) { return c == '\n' || c == '\r'; }

/* The next word of a line; 0 where the line has no more. */
static int next_word(struct words *line, struct words *word) {
    while (line->at < line->end && is_blank(*line->at)) line->at++;
    word->at = line->at;
    while (line->at < line->end && !is_blank(*line->at) && !ends_line(*line->at)) line->at++;
    word->end = line->at;
    return word->at < word->end;
}

static void next_line(struct words *text) {
    while (text->at < text->end && !ends_line(*text->at)) text->at++;
    while (text->at < text->end && ends_line(*text->at)) text->at++;
}

/* Whether a word is a name, written in capitals here, in either case. */
static int named(struct words word, const char *name) {
    for (; word.at < word.end && *name; word.at++, name++) {
        char c = *word.at;
        if (c >= 'a' && c <= 'z') c = (char)(c - 'a' + 'A');
        if (c != *name) return 0;
    }
    return word.at == word.end && !*name;
}

static int is_digit(struct words w) { return w.at < w.end && *w.at >= '0' && *w.at <= '9'; }

/* Digits, after a number that they continue; gives how many. */
static int digits(struct words *w, double *number) {
    int count = 0;
    for (; is_digit(*w); w->at++, count++) *number = *number * 10 + (*w->at - '0');
    return count;
}

static double times_ten(double number, int power) {
    double by = 1;
    int k, times = power < 0 ? -power : power;
    for (k = 0; k < times && k < 400; k++) by *= 10;
    return power < 0 ? number / by : number * by;
}

/* A number with a sign, decimals and a power of ten, each of which may lack; of the size of a
   coordinate. */
static int number_of(struct words w, double *number) {
    int minus = w.at < w.end && *w.at == '-', decimals = 0, whole, less;
    double power = 0;
    *number = 0;
    if (minus || (w.at < w.end && *w.at == '+')) w.at++;
    whole = digits(&w, number);
    if (w.at < w.end && *w.at == '.') {
        w.at++;
        decimals = digits(&w, number);
    }
    if (whole + decimals == 0 || whole + decimals > 300) return 0;
    if (w.at < w.end && (*w.at == 'e' || *w.at == 'E')) {
        w.at++;
        less = w.at < w.end && *w.at == '-';
        if (less || (w.at < w.end && *w.at == '+')) w.at++;
        if (digits(&w, &power) == 0 || power > 99) return 0;
        if (less) power = -power;
    }
    *number = times_ten(minus ? -*number : *number, (int)power - decimals);
    return w.at == w.end && *number > -1e12 && *number < 1e12;
}

/* The coordinates of a line 'DD junction x y'; gives the junction, 0 where the line has none. */
static uint32_t coordinates_of(struct words line, uint32_t n, struct point *p) {
    struct words first, v, x, y;
    double junction = 0;
    if (!next_word(&line, &first) || !named(first, "DD")) return 0;
    if (!next_word(&line, &v) || !next_word(&line, &x) || !next_word(&line, &y)) return 0;
    if (!number_of(x, &p->x) || !number_of(y, &p->y)) return 0;
    digits(&v, &junction);
    return v.at == v.end && junction >= 1 && junction <= n ? (uint32_t)junction : 0;
}

/* Whether a line opens a section of coordinates, and whether it ends one. */
static int opens(struct words line) {
    struct words word;
    if (!next_word(&line, &word) || !named(word, "SECTION")) return 0;
    return next_word(&line, &word) && named(word, "COORDINATES");
}

static int closes(struct words line) {
    struct words word;
    return next_word(&line, &word) && named(word, "END");
}

int places_read(const char *text, size_t len, uint32_t n, struct point *at) {
    uint8_t found[PLACES_JUNCTIONS + 1];
    struct words rest;
    uint32_t v, have = 0;
    int inside = 0;
    for (v = 0; v <= PLACES_JUNCTIONS; v++) found[v] = 0;
    rest.at = text;
    rest.end = text + len;
    for (; rest.at < rest.end; next_line(&rest)) {
        struct point p = {0, 0};
        if (!inside) inside = opens(rest);
        else if (closes(rest)) inside = 0;
        else if ((v = coordinates_of(rest, n, &p)) > 0) {
            have += !found[v];
            found[v] = 1;
            at[v] = p;
        }
    }
    return n > 0 && have == n;
}
