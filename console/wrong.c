/* Says why a line cannot stand. Where more than the line itself counts, star_read_table is asked
   about the line alone or about the lines before it. */
#include "wrong.h"

#include "fields.h"
#include "price.h"

static struct reading r;

static int ends(char c) { return c == '\n' || c == '\r'; }

struct span wrong_line(struct span text, size_t place) {
    struct span line;
    size_t from = place, to = place, start = reading_order_mark(text.at, text.len);
    while (from > start && !ends(text.at[from - 1])) from--;
    while (to < text.len && !ends(text.at[to])) to++;
    line.at = text.at + from;
    line.len = to - from;
    return line;
}

/* The field that begins at a place. */
static struct span field_at(const struct fields *f, const char *at) {
    struct span none = {at, 0};
    size_t k;
    for (k = 0; k < f->kept; k++)
        if (f->bare[k].at == at) return f->bare[k];
    return none;
}

static int holds(struct span s, char c) { return s.len > 0 && memchr(s.at, c, s.len) != NULL; }

/* A separator that was not meant as one hides the blanks of a line. */
static void say_parted(struct message *to, char by) {
    if (by != ' ')
        say(to, "; %s stands in the line, so that %s alone part its fields", fields_parted(by),
            fields_parts(by));
}

static void say_trench_line(struct message *to, struct span content, char by) {
    say_quoted(to, content);
    say(to, " is not a trench, which has two junctions, a price and a mark");
    if (text_nth(content, 2).len > 0) say_parted(to, by);
}

/* Whether a field has numbers and blanks alone, and so more than one of them. */
static int has_numbers(struct span field) {
    size_t k = 0;
    while (k < field.len && (field.at[k] == ' ' || (field.at[k] >= '0' && field.at[k] <= '9'))) k++;
    return k == field.len && holds(field, ' ');
}

static void say_junction_field(struct message *to, struct span field, char by) {
    say_quoted(to, field);
    say(to, " is not a junction, a number from 1 to %d or a name with a letter in it",
        STAR_MAX_JUNCTIONS);
    if (holds(field, '"')) say(to, " and no quotation mark");
    if (has_numbers(field)) say_parted(to, by);
}

static void say_price_field(struct message *to, struct span field, char by) {
    say_quoted(to, field);
    say(to, " is not a price, " PRICE_TEXT);
    if (holds(field, '.') || holds(field, ','))
        say(to, "; write it without a point or comma, and all prices in the same unit");
    if (has_numbers(field)) say_parted(to, by);
}

static void say_mark_field(struct message *to, struct span field, char by) {
    say_quoted(to, field);
    say(to, " is not a mark, 1 (x, yes, true) or 0 (no, false, nothing)");
    if (by == ',') say(to, "; where commas part the fields, a price with a comma is two of them");
}

/* The line is a second one, where it could stand alone. */
static void say_count_line(struct message *to, struct span content) {
    reading_of(&r, content.at, content.len);
    say_quoted(to, content);
    if (r.file.kind == STAR_PASSED) say(to, " is a second line 'junctions N'");
    else say(to, " is not a line 'junctions N', N a number");
}

/* Which of the two the lines before have, and the first of them: or the line's own left junction,
   where no trench stands before it. */
static void say_mixed(struct message *to, struct span text, struct span line, struct span field) {
    struct fields f = fields_of(fields_content(line));
    struct span first = f.bare[text_is(f.bare[0], "STRUCK")];
    size_t place = (size_t)(first.at - text.at);
    uint32_t number;
    reading_of(&r, text.at, (size_t)(line.at - text.at));
    if (r.file.kind == STAR_PASSED && r.file.m > 0) {
        place = r.row_at[0];
        f = fields_of(fields_content(wrong_line(text, place)));
        first = f.bare[text_is(f.bare[0], "STRUCK")];
    }
    say_quoted(to, field);
    say(to, " is a %s, and ", text_number(field, &number) ? "number" : "name");
    say_quoted(to, first);
    say(to, " in line %llu a %s: the junctions of a file are all numbers or all names",
        (unsigned long long)star_line_of((const uint8_t *)text.at, text.len, (uint32_t)place),
        text_number(first, &number) ? "number" : "name");
}

void wrong_words(struct message *to, struct span text, struct star_file refused) {
    struct span line = wrong_line(text, refused.place), content = fields_content(line);
    struct fields f = fields_of(content);
    struct span field = field_at(&f, text.at + refused.place);
    switch (refused.number) {
    case STAR_NOT_TRENCH: say_trench_line(to, content, f.by); break;
    case STAR_NOT_JUNCTION: say_junction_field(to, field, f.by); break;
    case STAR_NOT_PRICE: say_price_field(to, field, f.by); break;
    case STAR_NOT_MARK: say_mark_field(to, field, f.by); break;
    case STAR_NOT_COUNT: say_count_line(to, content); break;
    case STAR_MIXED_NAMES: say_mixed(to, text, line, field); break;
    case STAR_TOO_MANY_ROWS:
        say(to,
            "there are more than %d trenches; at most %d are taken, struck ones included, and "
            "trench %d stands in this line.",
            STAR_MAX_ROWS, STAR_MAX_ROWS, STAR_MAX_ROWS + 1);
        break;
    case STAR_TOO_MANY_NAMES:
        say_quoted(to, field);
        say(to, " is name %d; from 1 to %d junctions are taken.", STAR_MAX_NAMES + 1,
            STAR_MAX_JUNCTIONS);
        break;
    default: say(to, "%s", star_refusal_text(refused.number));
    }
    if (refused.number >= STAR_NOT_TRENCH && refused.number <= STAR_NOT_MARK &&
        holds(content, '\0'))
        say(to, "; the line has a zero byte");
}
