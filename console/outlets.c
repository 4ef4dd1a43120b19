/* The command outlets: a cheapest network with exactly so many trenches at a junction, such as a
   boiler house; or which numbers are possible. */
#include <string.h>

#include "commands.h"
#include "edit.h"
#include "json.h"
#include "refusal.h"
#include "status.h"
#include "usage.h"

/* A table that is asked about without a change to the one that was read. */
static struct table copy;

/* The counts that a network can have at a junction, by asking for each of them: the least and the
   largest. No network has more there than the table. */
static void counts(const struct table *t, uint32_t junction, uint32_t *least, uint32_t *largest) {
    uint32_t count, most = 0;
    size_t i;
    int found = 0;
    for (i = table_next(t, 0); i <= t->m; i = table_next(t, i))
        most += t->left[i - 1] == junction || t->right[i - 1] == junction;
    for (count = 0; count <= most; count++) {
        copy = *t;
        if (table_outlets(&copy, junction, count).kind != STAR_PASSED) continue;
        if (!found) *least = count;
        *largest = count;
        found = 1;
    }
}

static void say_no_outlets(struct message *to, const struct table *t, const uint32_t asked[2],
                           char **words, uint32_t least, uint32_t largest) {
    refusal_opens(to, STAR_NO_OUTLETS, t->file, 0);
    say(to, "no network has exactly ");
    say_given(to, words[1]);
    say(to, " %s at junction ", asked[1] == 1 ? "trench" : "trenches");
    say_junction(to, t, asked[0]);
    say(to, "; ");
    if (least == largest) say(to, "every network has %u there.", (unsigned)least);
    else say(to, "from %u to %u are possible.", (unsigned)least, (unsigned)largest);
    if (t->strikes == 0) return;
    say(to, " ");
    say_count(to, t->strikes, "struck trench is left out.", "struck trenches are left out.");
}

/* No network has the number that is asked for: those that are possible are told. */
static int none_has(struct output *o, const struct table *t, const uint32_t asked[2],
                    const struct options *with) {
    struct message words = {{0}, 0};
    uint32_t possible[2] = {0, 0};
    struct json j;
    FILE *to;
    counts(t, asked[0], &possible[0], &possible[1]);
    say_no_outlets(&words, t, asked, with->words, possible[0], possible[1]);
    if (!with->json) return tell_refused(o, with, &words);
    to = output_open(o);
    if (!to) return EXIT_UNWRITTEN;
    json_begin(&j, to, with, "refused", EXIT_REFUSED);
    json_refusal(&j, words.text);
    json_numbers(&j, "possible", possible, 2);
    json_end(&j);
    return EXIT_REFUSED;
}

/* Numbers are told as they were given. */
static int refused(struct output *o, const struct table *t, struct star_answer a,
                   const uint32_t asked[2], const struct options *with) {
    struct message words = {{0}, 0};
    if (a.number == STAR_NO_OUTLETS) return none_has(o, t, asked, with);
    if (a.number == STAR_BAD_SOURCE) refusal_of_asked_junction(&words, t, with->words[0]);
    else refusal_words(&words, t, a);
    return tell_refused(o, with, &words);
}

/* The total of a cheapest network with any number there. */
static int64_t least_total(const struct table *t) {
    copy = *t;
    return table_mst1(&copy).amount;
}

static void outlets_words(FILE *to, const struct table *t, const uint32_t asked[2],
                          int64_t amount) {
    struct message words = {{0}, 0}, at = {{0}, 0};
    char figures[2][FIGURES];
    int64_t least = least_total(t);
    say_count(&words, asked[1], "trench", "trenches");
    say(&at, "at junction ");
    say_junction(&at, t, asked[0]);
    fprintf(to, "A cheapest network with exactly %s %s:\n", words.text, at.text);
    table_list(to, t, t->mark, 1, t->m);
    fprintf(to, "Total %s\n", amount_figures(figures[0], amount));
    if (least == amount) fprintf(to, "No network is cheaper, whatever it has %s.\n", at.text);
    else
        fprintf(to, "With any number %s the cheapest network costs %s: %s less.\n", at.text,
                amount_figures(figures[0], least), amount_figures(figures[1], amount - least));
}

static void outlets_json(FILE *to, const struct table *t, const uint32_t asked[2], int64_t amount,
                         const struct options *with) {
    struct json j;
    json_begin(&j, to, with, "built", EXIT_PASSED);
    json_number(&j, "junction", asked[0]);
    json_number(&j, "count", asked[1]);
    json_rows(&j, "rows", t, t->mark, 1, t->m);
    json_number(&j, "total", amount);
    json_number(&j, "least", least_total(t));
    json_end(&j);
}

/* The words JUNCTION COUNT. */
static int question(const struct table *t, const struct options *with, uint32_t asked[2]) {
    struct span count;
    int status;
    if (with->count != 2)
        return misused("a junction and a number of trenches follow the file of", "outlets");
    status = junction_asked(t, with->words[0], &asked[0]);
    if (status != 0) return status;
    count.at = with->words[1];
    count.len = strlen(with->words[1]);
    return text_number(count, &asked[1])
               ? 0
               : misused("the trenches at a junction are a number, and not", with->words[1]);
}

int command_outlets(struct table *t, const struct options *with, struct output *o) {
    struct star_answer a;
    uint32_t asked[2];
    FILE *to;
    int status = question(t, with, asked);
    if (status != 0) return status;
    a = table_outlets(t, asked[0], asked[1]);
    if (a.kind != STAR_PASSED) return refused(o, t, a, asked, with);
    if (with->table) return edit_marks(o, t);
    to = output_open(o);
    if (!to) return EXIT_UNWRITTEN;
    if (with->json) outlets_json(to, t, asked, a.amount, with);
    else outlets_words(to, t, asked, a.amount);
    return EXIT_PASSED;
}
