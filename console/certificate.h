/* The certificate of a verdict, which can be checked against the table without this program. */
#ifndef CONSOLE_CERTIFICATE_H
#define CONSOLE_CERTIFICATE_H

#include "table.h"

/* Writes the certificate of what the tree checker answered; 0 where it refused, and nothing is
   certified. */
int certificate_write(FILE *to, const struct table *t, struct star_answer a);

#endif
