/* The commands about the price of one trench: quote and breaking. The doors give totals and
   breaking prices; here they are put in words. */
#include "commands.h"
#include "detour.h"
#include "json.h"
#include "refusal.h"
#include "status.h"
#include "usage.h"
#include "verdict.h"

/* Writes the words, and ends with a status. */
static int told(struct output *o, const struct message *words, int status) {
    FILE *to = output_open(o);
    if (!to) return EXIT_UNWRITTEN;
    fprintf(to, "%s\n", words->text);
    return status;
}

/* A refusal, which is a question's result. */
static int refused(struct output *o, const struct options *with, const struct table *t,
                   size_t trench, struct star_answer a) {
    struct message words = {{0}, 0};
    if (a.number == STAR_BAD_SOURCE) refusal_of_asked(&words, t, trench, with->words[0]);
    else refusal_words(&words, t, a);
    return tell_refused(o, with, &words);
}

static int quote_json(struct output *o, const struct options *with, const struct table *t,
                      size_t trench, const uint8_t price[PRICE_BYTES], struct star_quoted q) {
    struct json j;
    FILE *to = output_open(o);
    if (!to) return EXIT_UNWRITTEN;
    json_begin(&j, to, with, "told", EXIT_PASSED);
    json_trench(&j, "trench", t, trench);
    json_number(&j, "price", star_get_price(price, 0));
    json_number(&j, "before", q.before);
    json_number(&j, "after", q.after);
    json_number(&j, "more", q.after - q.before);
    json_end(&j);
    return EXIT_PASSED;
}

int command_quote(struct table *t, const struct options *with, struct output *o) {
    struct message words = {{0}, 0};
    struct star_quoted q;
    uint8_t price[PRICE_BYTES];
    char figures[4][FIGURES];
    uint32_t trench;
    int status;
    if (with->count != 2)
        return misused("the number of a trench and its new price follow the file of", "quote");
    status = trench_named(with->words[0], &trench);
    if (status == 0) status = price_named(with->words[1], price);
    if (status != 0) return status;
    q = table_quote(t, trench, price);
    if (q.kind != STAR_PASSED) {
        struct star_answer a = {STAR_REFUSED, q.number, q.place, 0, 0, 0};
        return refused(o, with, t, trench, a);
    }
    if (with->json) return quote_json(o, with, t, trench, price, q);
    say_trench(&words, t, trench);
    say(&words,
        " at the new price %s:\nThe cheapest network costs %s today and %s at the new price: ",
        price_figures(figures[0], price), amount_figures(figures[1], q.before),
        amount_figures(figures[2], q.after));
    if (q.after == q.before) say(&words, "the same.");
    else
        say(&words, "%s %s.",
            amount_figures(figures[3],
                           q.after > q.before ? q.after - q.before : q.before - q.after),
            q.after > q.before ? "more" : "less");
    return told(o, &words, EXIT_PASSED);
}

/* The trench that takes another one's place, and what the cheapest network without it costs: the
   network is built with it struck, and of the way between its ends over that network the dearest
   trench is meant. 0 where there is no such network. */
static size_t instead_of(const struct table *t, size_t i, int64_t *total) {
    static struct table without;
    static struct paths p;
    static struct detour d;
    struct star_answer a;
    without = *t;
    if (table_strike(&without, i).kind != STAR_PASSED) return 0;
    a = table_mst1(&without);
    *total = a.amount;
    p.from = 0;
    return a.kind == STAR_PASSED && way_between(&d, &p, &without, t->left[i - 1], t->right[i - 1])
               ? d.dearest
               : 0;
}

/* The least total of the table as it stands. */
static int64_t least(const struct table *t) {
    static struct table copy;
    copy = *t;
    return table_mst1(&copy).amount;
}

static void say_total(struct message *to, const struct table *t) {
    char total[FIGURES];
    say(to, "\nThe cheapest network costs %s today", amount_figures(total, least(t)));
}

/* A trench with a breaking price: up to it, a cheapest network has the trench; above, none has, and
   another takes its place. */
static void say_breaking(struct message *to, const struct table *t, size_t i, int64_t breaking) {
    int64_t total = 0;
    size_t instead = instead_of(t, i, &total);
    char figures[2][FIGURES];
    int stays = table_cost(t, i) <= breaking;
    amount_figures(figures[0], breaking);
    if (!stays)
        say(to,
            " is in no cheapest network at this price. It is in a cheapest network at %s%s; "
            "above, ",
            figures[0], breaking == STAR_MIN_PRICE ? ", the least price" : " or less");
    else if (breaking == STAR_MAX_PRICE)
        say(to, " is in a cheapest network at every price; at the largest, %s, ", figures[0]);
    else say(to, " is in a cheapest network up to %s; above, ", figures[0]);
    if (instead > 0) say_trench(to, t, instead);
    else say(to, "another trench");
    if (!stays) say(to, " stands in its place.");
    else say(to, breaking == STAR_MAX_PRICE ? " costs as much." : " takes its place.");
    say_total(to, t);
    say(to, ", and %s at ", amount_figures(figures[1], total));
    say(to, breaking == STAR_MAX_PRICE ? "the price %s." : "any price from %s on.", figures[0]);
}

static int breaking_json(struct output *o, const struct options *with, const struct table *t,
                         size_t trench, struct star_answer a) {
    int64_t above = 0;
    size_t instead = a.kind == STAR_PASSED ? instead_of(t, trench, &above) : 0;
    struct json j;
    FILE *to = output_open(o);
    if (!to) return EXIT_UNWRITTEN;
    json_begin(&j, to, with, "told", EXIT_PASSED);
    json_trench(&j, "trench", t, trench);
    json_truth(&j, "always", a.kind != STAR_PASSED);
    json_number(&j, "before", least(t));
    if (a.kind == STAR_PASSED) {
        json_number(&j, "breaking", a.amount);
        json_number(&j, "after", above);
    }
    if (instead > 0) json_trench(&j, "instead", t, instead);
    json_end(&j);
    return EXIT_PASSED;
}

int command_breaking(struct table *t, const struct options *with, struct output *o) {
    struct message words = {{0}, 0};
    struct star_answer a;
    uint32_t trench;
    int status;
    if (with->count != 1)
        return misused("the number of one trench follows the file of", "breaking");
    status = trench_named(with->words[0], &trench);
    if (status != 0) return status;
    a = table_breaking(t, trench);
    if (a.kind == STAR_REFUSED) return refused(o, with, t, trench, a);
    if (with->json) return breaking_json(o, with, t, trench, a);
    say_trench(&words, t, trench);
    if (a.kind == STAR_PASSED) say_breaking(&words, t, trench, a.amount);
    else {
        say(&words, " has no other route; it is in every network.");
        say_total(&words, t);
        say(&words, ", and this changes by as much as the trench's price.");
    }
    return told(o, &words, EXIT_PASSED);
}
