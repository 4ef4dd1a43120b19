/* The program of the page: one HTML file with the doors inside it, and a place for a table. It is
   made by 'make page', and stands beside the console or where 'make install' puts it. */
#ifndef CONSOLE_PROGRAM_H
#define CONSOLE_PROGRAM_H

#include "table.h"

struct program {
    char *bytes; /* all of it */
    size_t len;
    size_t place; /* where the table goes */
};

enum found { NOT_FOUND, FOUND, OTHER_VERSION };

/* Finds and reads it. Where there is none, or one of another version than the console's, it says so
   on standard error, and how to get it. */
enum found program_open(struct program *p);

/* Writes it with the bytes of a table file inside, under a name. */
void program_write(FILE *to, const struct program *p, const struct table *t, const char *name);

void program_close(struct program *p);

#endif
