/* Where a command writes: standard output or a file. */
#ifndef CONSOLE_OUTPUT_H
#define CONSOLE_OUTPUT_H

#include <stdio.h>

#include "files.h"

struct output {
    const char *file; /* NULL for standard output */
    FILE *to;         /* NULL before it is opened */
    char *bytes;      /* what is written when the output is closed */
    size_t len;
    struct file_id read; /* the file as it was read, where the result is to take its place */
};

/* Opens the output when there is something to write, so that a file is left as it was where there
   is nothing. Says what is wrong on standard error, and returns NULL. */
FILE *output_open(struct output *o);

/* Writes what is pending: a file as a whole (files.h). Says on standard error if it could not be
   written, and returns 0. */
int output_close(struct output *o);

/* Gives up what is pending for a file: it is left as it was. */
void output_drop(struct output *o);

/* Where standard output is this file, nothing is written to it: the file is one that is named, and
   words behind its last line would make it another table. */
void output_bar(struct file_id named);

/* Whether what a command writes may go to the output though this file was read: it may where the
   output is another file, or where the result takes the file's place as its table. Says on standard
   error what is wrong, and gives EXIT_USAGE; 0 if all is well. */
int output_spares(struct output *o, struct file_id read, const char *command, int table);

#endif
