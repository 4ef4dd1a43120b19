/* The command digs: the dig list for the site, as a door writes it. A refusal is the list's only
   line, as the program diglist prints it, and stands in words on standard error. */
#include <inttypes.h>
#include <stdlib.h>
#include <string.h>

#include "faults.h"
#include "json.h"
#include "refusal.h"
#include "status.h"

/* The lines of the list as an object: the trench whose number opens each, and the total. */
static void digs_json(FILE *to, const struct table *t, const char *list,
                      const struct options *with) {
    struct json j;
    json_begin(&j, to, with, with->plan ? "told" : "built", EXIT_PASSED);
    json_open(&j, "rows", '[');
    for (; *list != 'T'; list = strchr(list, '\n') + 1)
        json_trench(&j, NULL, t, strtoul(list, NULL, 10));
    json_close(&j, ']');
    json_number(&j, "total", strtoll(list + strlen("Total "), NULL, 10));
    json_end(&j);
}

/* The list of a file with names: each line of the door's with the names of its junctions in place
   of their numbers. */
static void digs_named(FILE *to, const struct table *t, const char *list) {
    for (; *list != 'T'; list = strchr(list, '\n') + 1) {
        struct message words = {{0}, 0};
        size_t i = strtoul(list, NULL, 10);
        char price[FIGURES];
        say_ends(&words, t, i);
        fprintf(to, "%zu %s %s\n", i, words.text, table_price(price, t, i));
    }
    fputs(list, to);
}

/* A refusal: the list's only line and its words beside it, or an object. What is wrong with a text
   was told when it was read; its place is a byte. */
static int refused(struct output *o, const struct table *t, struct star_answer a,
                   const struct options *with) {
    struct message words = {{0}, 0};
    int of_text = t->stp || t->refused.number > 0;
    int told = of_text && a.number != STAR_NO_NETWORK;
    FILE *to = output_open(o);
    if (!to) return EXIT_UNWRITTEN;
    if (!told) refusal_words(&words, t, a);
    if (with->json) json_fault(to, with, EXIT_REFUSED, told ? fault_last() : words.text);
    else {
        fprintf(to, "Refused %u %" PRIu64 "\n", a.number,
                of_text ? (uint64_t)a.amount : (uint64_t)a.out);
        if (!told) fault_tell(&words);
    }
    return EXIT_REFUSED;
}

int command_digs(struct table *t, const struct options *with, struct output *o) {
    static char text[STAR_MAX_LIST + 1];
    struct star_answer a = {STAR_REFUSED, t->refused.number, 0, 0, 0, t->refused.place};
    FILE *to;
    if (t->refused.number == 0)
        a = with->plan ? table_plan_digs(t, (uint8_t *)text, STAR_MAX_LIST)
                       : table_digs(t, (uint8_t *)text, STAR_MAX_LIST);
    if (a.kind != STAR_PASSED) return refused(o, t, a, with);
    to = output_open(o);
    if (!to) return EXIT_UNWRITTEN;
    if (with->json) digs_json(to, t, text, with);
    else if (t->names > 0) digs_named(to, t, text);
    else fwrite(text, 1, (size_t)a.amount, to);
    return EXIT_PASSED;
}
