/* Hands an STP text to the door, and says in words why it is refused. */
#include "stp.h"

#include <inttypes.h>

#include "refusal.h"

/* The line that has a place. */
static struct place line_of(struct span text, size_t place) {
    const char *at = text.at + place;
    struct place found = {0, {NULL, 0}};
    struct span line;
    while (text_line(&text, &line) && line.at <= at) {
        found.line++;
        found.text = line;
    }
    return found;
}

/* Whether a place is the first of its line but for blanks. */
static int opens_line(struct span text, size_t place) {
    while (place > 0 && (text.at[place - 1] == ' ' || text.at[place - 1] == '\t')) place--;
    return place == 0 || text.at[place - 1] == '\n' || text.at[place - 1] == '\r';
}

/* Whether a word that cannot stand stands where a line E has its price. */
static int for_price(struct span line, struct span word) {
    return text_is(text_nth(line, 0), "E") && text_nth(line, 3).at == word.at;
}

static void broken(struct message *to, const char *file, struct span text, uint64_t place) {
    struct span rest = text, word;
    struct place at = {0, {NULL, 0}};
    size_t k = (size_t)place, i;
    if (text.len <= STAR_MAX_TEXT && k < text.len) at = line_of(text, k);
    refusal_opens(to, STAR_BAD_TEXT, file, at.line);
    if (text.len > STAR_MAX_TEXT) {
        say(to, "the text has %zu bytes; at most %d are taken.", text.len, STAR_MAX_TEXT);
        return;
    }
    if (k >= text.len) {
        for (i = 0; text_word(&rest, &word);) i = (size_t)(word.at - text.at);
        say(to, "the text ends too early, after line %zu.", line_of(text, i).line);
        return;
    }
    rest.at += k;
    rest.len -= k;
    text_word(&rest, &word);
    say(to, "the word ");
    say_quoted(to, word);
    say(to, " cannot stand there");
    if (opens_line(text, k)) say(to, ", or the line before it ends too soon");
    else if (for_price(at.text, word)) say(to, "; a price is %s", PRICE_TEXT);
    say(to, ".");
}

/* What the section Graph of a text says. */
struct graph {
    struct place nodes, edges; /* the numbers in the lines Nodes and Edges */
    struct place wanted;       /* the E line asked for */
    size_t rows;               /* E lines */
    size_t alike;              /* the first one with the ends of a line that is given, 0 for none */
};

/* Whether two E lines have the same ends, in either direction. */
static int same_ends(struct span one, struct span other) {
    uint32_t a = 0, b = 0, c = 0, d = 0;
    text_number(text_nth(one, 1), &a);
    text_number(text_nth(one, 2), &b);
    text_number(text_nth(other, 1), &c);
    text_number(text_nth(other, 2), &d);
    return (a == c && b == d) || (a == d && b == c);
}

static struct place number_in(struct place at) {
    at.text = text_nth(at.text, 1);
    return at;
}

/* Looks up the lines of the section Graph in a text whose layout the door has found sound. `like`
   is an E line, or empty. */
static struct graph graph_of(struct span text, uint64_t wanted, struct span like) {
    struct graph g = {{0, {NULL, 0}}, {0, {NULL, 0}}, {0, {NULL, 0}}, 0, 0};
    struct place at = {0, {NULL, 0}};
    enum { BETWEEN, GRAPH, OTHER } section = BETWEEN;
    while (text_line(&text, &at.text)) {
        struct span first = text_nth(at.text, 0), second = text_nth(at.text, 1);
        at.line++;
        if (section == BETWEEN) {
            if (text_is(first, "SECTION")) section = text_is(second, "GRAPH") ? GRAPH : OTHER;
        } else if (text_is(first, "END") && second.len == 0) section = BETWEEN;
        else if (section == GRAPH && text_is(first, "NODES")) g.nodes = number_in(at);
        else if (section == GRAPH && text_is(first, "EDGES")) g.edges = number_in(at);
        else if (section == GRAPH && text_is(first, "E")) {
            if (++g.rows == wanted) g.wanted = at;
            if (g.alike == 0 && like.len > 0 && same_ends(at.text, like)) g.alike = g.rows;
        }
    }
    return g;
}

static void refused(struct message *to, const char *file, struct span text,
                    struct star_imported a) {
    struct span none = {NULL, 0}, ends[2];
    struct graph g =
        graph_of(text, a.number == STAR_TOO_MANY_ROWS ? STAR_MAX_ROWS + 1 : a.place, none);
    uint32_t n = 0;
    switch (a.number) {
    case STAR_BAD_EDGE_COUNT:
        refusal_opens(to, a.number, file, g.edges.line);
        say(to, "the line Edges says ");
        say_word(to, g.edges.text);
        say(to, ", and ");
        say_count(to, g.rows, "E line stands in the section.", "E lines stand in the section.");
        break;
    case STAR_BAD_JUNCTION_COUNT:
        refusal_opens(to, a.number, file, g.nodes.line);
        say(to, "the line Nodes says ");
        say_word(to, g.nodes.text);
        say(to, "; from 1 to %d junctions are taken.", STAR_MAX_JUNCTIONS);
        break;
    case STAR_TOO_MANY_ROWS:
        refusal_opens(to, a.number, file, g.wanted.line);
        say(to, "there are %zu E lines; at most %d are taken, and E line %d is this one.", g.rows,
            STAR_MAX_ROWS, STAR_MAX_ROWS + 1);
        break;
    case STAR_BAD_END:
        refusal_opens(to, a.number, file, g.wanted.line);
        ends[0] = text_nth(g.wanted.text, 1);
        ends[1] = text_nth(g.wanted.text, 2);
        text_number(g.nodes.text, &n);
        refusal_of_end(to, (size_t)a.place, ends, n);
        break;
    case STAR_REPEATED_ROW:
        refusal_opens(to, a.number, file, g.wanted.line);
        refusal_of_repeat(to, (size_t)a.place, graph_of(text, 0, g.wanted.text).alike);
        break;
    default:
        refusal_opens(to, a.number, file, 0);
        say(to, "%s (place %" PRIu64 ").", star_refusal_text(a.number), a.place);
    }
}

int stp_read(struct table *t, struct span text, struct message *fault) {
    uint8_t answer[STAR_ANSWER_BYTES];
    struct star_imported a;
    star_import((const uint8_t *)text.at, text.len, t->left, STAR_MAX_ROWS, t->right, STAR_MAX_ROWS,
                t->weight, PRICE_BYTES * STAR_MAX_ROWS, answer, sizeof answer);
    a = star_read_imported(answer);
    if (a.kind == STAR_PASSED) {
        t->n = a.n;
        t->m = a.m;
        return 1;
    }
    if (a.number == STAR_BAD_TEXT) broken(fault, t->file, text, a.place);
    else refused(fault, t->file, text, a);
    return 0;
}
