/* The command districts: the cheapest trenches of each district, a run of the file's trenches, and
   a cheapest network of the city from these. Both come from one door. */
#include <string.h>

#include "commands.h"
#include "edit.h"
#include "json.h"
#include "refusal.h"
#include "status.h"
#include "usage.h"

/* The ends that are looked at: one more than are taken. */
enum { ENDS = STAR_MAX_RUNS + 1 };

static uint8_t forests[STAR_MAX_ROWS];

/* Reads the ends; those after the first ENDS are counted and not kept. */
static int ends_read(const struct options *with, uint32_t ends[ENDS]) {
    int i;
    for (i = 0; i < with->count; i++) {
        struct span word = {with->words[i], strlen(with->words[i])};
        uint32_t end;
        if (!text_number(word, &end))
            return misused("a district is given by the number of its last trench, and not by",
                           with->words[i]);
        if (i < ENDS) ends[i] = end;
    }
    return 0;
}

/* Why the ends are no districts of the table. They are told as they were given: two that are read
   as UINT32_MAX, the largest, may differ. */
static void say_runs(struct message *to, const struct table *t, const uint32_t *ends,
                     const struct options *with) {
    size_t count = (size_t)with->count, i;
    refusal_opens(to, STAR_BAD_RUNS, t->file, 0);
    if (count > STAR_MAX_RUNS) {
        say(to, "there are %zu districts; at most %d are taken.", count, STAR_MAX_RUNS);
        return;
    }
    for (i = 0; i < count; i++)
        if (ends[i] <= (i ? ends[i - 1] : 0) && ends[i] < UINT32_MAX) {
            say(to, "district %zu ends with trench ", i + 1);
            say_given(to, with->words[i]);
            if (i == 0) say(to, "; trenches are counted from 1.");
            else {
                say(to, ", and district %zu before it with trench ", i);
                say_given(to, with->words[i - 1]);
                say(to, ".");
            }
            return;
        }
    if (count == 0)
        say(to,
            "no district is given; each is given by the number of its last trench, the last one by "
            "%zu.",
            t->m);
    else {
        say(to, "the last district ends with trench ");
        say_given(to, with->words[count - 1]);
        say(to, "; it has to end with the last trench, and the table has %zu.", t->m);
    }
}

static int refused(struct output *o, const struct table *t, struct star_answer a,
                   const uint32_t *ends, const struct options *with) {
    struct message words = {{0}, 0};
    if (a.number == STAR_BAD_RUNS) say_runs(&words, t, ends, with);
    else refusal_words(&words, t, a);
    return tell_refused(o, with, &words);
}

static void total(FILE *to, int64_t amount) {
    char figures[FIGURES];
    fprintf(to, "Total %s\n", amount_figures(figures, amount));
}

static size_t first_of(const uint32_t *ends, size_t i) { return i ? ends[i - 1] + (size_t)1 : 1; }

static void districts_words(FILE *to, const struct table *t, const uint32_t *ends, size_t count,
                            int64_t amount) {
    size_t i;
    for (i = 0; i < count; i++) {
        size_t first = first_of(ends, i);
        if (first < ends[i])
            fprintf(to, "District %zu, trenches %zu to %u:\n", i + 1, first, (unsigned)ends[i]);
        else fprintf(to, "District %zu, trench %zu:\n", i + 1, first);
        total(to, table_list(to, t, forests, first, ends[i]));
    }
    fprintf(to, "The city, from the districts' trenches:\n");
    table_list(to, t, t->mark, 1, t->m);
    total(to, amount);
    fprintf(to, "No network of the whole table is cheaper.\n");
}

/* The sum of the prices of a district's chosen trenches. */
static int64_t sum(const struct table *t, size_t first, size_t last) {
    int64_t amount = 0;
    size_t i;
    for (i = table_next(t, first - 1); i <= last && i <= t->m; i = table_next(t, i))
        if (forests[i - 1] == 1) amount += table_cost(t, i);
    return amount;
}

static void districts_json(FILE *to, const struct table *t, const uint32_t *ends, int64_t amount,
                           const struct options *with) {
    struct json j;
    size_t i;
    json_begin(&j, to, with, "built", EXIT_PASSED);
    json_open(&j, "districts", '[');
    for (i = 0; i < (size_t)with->count; i++) {
        json_open(&j, NULL, '{');
        json_number(&j, "first", (int64_t)first_of(ends, i));
        json_number(&j, "last", ends[i]);
        json_rows(&j, "rows", t, forests, first_of(ends, i), ends[i]);
        json_number(&j, "total", sum(t, first_of(ends, i), ends[i]));
        json_close(&j, '}');
    }
    json_close(&j, ']');
    json_rows(&j, "rows", t, t->mark, 1, t->m);
    json_number(&j, "total", amount);
    json_end(&j);
}

int command_districts(struct table *t, const struct options *with, struct output *o) {
    uint32_t ends[ENDS];
    struct star_answer a;
    FILE *to;
    int status = ends_read(with, ends);
    if (status != 0) return status;
    a = table_districts(t, ends, (size_t)with->count, forests);
    if (a.kind != STAR_PASSED) return refused(o, t, a, ends, with);
    if (with->table) return edit_marks(o, t);
    to = output_open(o);
    if (!to) return EXIT_UNWRITTEN;
    if (with->json) districts_json(to, t, ends, a.amount, with);
    else districts_words(to, t, ends, (size_t)with->count, a.amount);
    return EXIT_PASSED;
}
