/* The folder in which a command runs: its files before the call, and what became of them. */
#ifndef FUZZ_FOLDER_H
#define FUZZ_FOLDER_H

#include <stddef.h>
#include <stdint.h>

struct bytes {
    const uint8_t *at;
    size_t len;
};

/* What a call left in the folder. */
struct left {
    struct bytes said;    /* standard output */
    unsigned changes;     /* files that are new or have other bytes */
    struct bytes changed; /* the last of these */
};

/* Makes the files plan and other, and opens the standard input, which is plan, and output. The
 * folder has a link to plan and a folder too. It is a temporary folder of this process, which it
 * works in from the first call on, and which is removed at the end. */
void folder_fill(struct bytes plan, struct bytes other);

/* Looks at what the call left, and removes it. The bytes stay until the next call. */
struct left folder_look(struct bytes plan, struct bytes other);

#endif
