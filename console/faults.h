/* Faults in words on standard error. The last one is remembered for the object that --json writes.
 */
#ifndef CONSOLE_FAULTS_H
#define CONSOLE_FAULTS_H

#include "text.h"

void fault_tell(const struct message *words);

/* The words that were told last, "" for none. */
const char *fault_last(void);

#endif
