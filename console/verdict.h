/* What check says of a plan: the answers of star_cst, star_other, star_best and star_total in
   words. */
#ifndef CONSOLE_VERDICT_H
#define CONSOLE_VERDICT_H

#include "json.h"

/* 'trench 1 (1-2, price 5)', 'trench 4 (Rathaus - Markt, price 5)'. */
void say_trench(struct message *to, const struct table *t, size_t i);

/* The totals of a plan with a cheaper set: its own, that after the exchange, and the least. A door
   gives each. */
struct totals {
    int64_t plan, after, least;
};

/* a is what table_judged answered. */
struct totals verdict_totals(const struct table *t, struct star_answer a);

/* The verdict, a line or more, without an end of line after the last; every number in it is a
   door's or the table's. */
void verdict_words(struct message *to, const struct table *t, struct star_answer a);

/* What the console adds of a plan with a cheaper set, by a subtraction of its own: how much can be
   saved at most. Nothing of any other plan. */
void verdict_gap(struct message *to, const struct table *t, struct star_answer a);

/* Which commands go on from here, a line each; nothing of a plan that passed or of a table that is
   refused. */
void verdict_next(struct message *to, const struct table *t, struct star_answer a);

/* 'passed', 'cheaper' or 'refused'; and the same as verdict_words and verdict_gap as keys of an
   object, with rings and groups of a plan that is refused. */
const char *verdict_name(struct star_answer a);
void verdict_json(struct json *j, const struct table *t, struct star_answer a);

#endif
