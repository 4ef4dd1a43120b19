/* Tells faults. */
#include "faults.h"

#include <stdio.h>

static struct message last;

void fault_tell(const struct message *words) {
    fprintf(stderr, "%s\n", words->text);
    last = *words;
}

const char *fault_last(void) { return last.text; }
