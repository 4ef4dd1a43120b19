/* SteinLib STP files, read through the door. */
#ifndef CONSOLE_STP_H
#define CONSOLE_STP_H

#include "table.h"

/* Reads an STP text into a table without marks. A refusal is told in words, and 0 returned. */
int stp_read(struct table *t, struct span text, struct message *fault);

#endif
