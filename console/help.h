/* The help: of all commands, on 80 columns and 40 lines, and of one. Both are made from the table
   of commands. */
#ifndef CONSOLE_HELP_H
#define CONSOLE_HELP_H

#include <stdio.h>

#include "pages.h"

void help_all(FILE *to);
void help_of(FILE *to, const struct page *p);

#endif
