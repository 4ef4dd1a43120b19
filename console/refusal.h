/* Refusals in words. */
#ifndef CONSOLE_REFUSAL_H
#define CONSOLE_REFUSAL_H

#include "table.h"

/* Says why the door refused a table: 'Refused (NUMBER): FILE:LINE: ..'. */
void refusal_words(struct message *to, const struct table *t, struct star_answer a);

/* Says why a trench is not struck: it is struck already, or there is none of this number; and why a
   trench or a junction cannot be asked about. The number is told as the word that gave it, since it
   may be above all that are read. */
void refusal_of_strike(struct message *to, const struct table *t, size_t trench, const char *word);
void refusal_of_asked(struct message *to, const struct table *t, size_t trench, const char *word);
void refusal_of_asked_junction(struct message *to, const struct table *t, const char *word);

/* Whether the table has a trench in use of this number. */
int refusal_has_trench(const struct table *t, size_t trench);

/* The refusal that was put in words last: its number, and its place and line, 0 where it has
   none. */
struct refusal {
    unsigned number, place;
    size_t line;
};
struct refusal refusal_last(void);

/* Whether a refusal is about the marked trenches together: then the table itself is sound, and can
   be drawn and written. */
int refusal_of_plan(struct star_answer a);

/* Says which junctions no trench in use names, if there are such. */
void refusal_unnamed(struct message *to, const struct table *t);

/* What the refusals of tables and of STP texts have in common. */
void refusal_opens(struct message *to, unsigned number, const char *file, size_t line);
void refusal_of_end(struct message *to, size_t trench, const struct span ends[2], uint32_t n);
void refusal_of_repeat(struct message *to, size_t trench, size_t earlier);

#endif
