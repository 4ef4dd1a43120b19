/* Which fault of a control is asked for. */
#ifndef TESTS_FAULT_H
#define TESTS_FAULT_H

#include <stdlib.h>
#include <string.h>

/* Whether the environment's FAULT names this fault. */
static inline int fault(const char *name) {
    static const char *chosen;
    if (!chosen) chosen = getenv("FAULT") ? getenv("FAULT") : "none";
    return strcmp(chosen, name) == 0;
}

#endif
