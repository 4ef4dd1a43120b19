/* Reads a file whole and takes it as a planner's table or an STP text. */
#ifndef CONSOLE_INPUT_H
#define CONSOLE_INPUT_H

#include "files.h"
#include "table.h"

struct input {
    const char *file;  /* its name, for messages */
    char *bytes;       /* all of it */
    struct span text;  /* all of it but a byte order mark */
    int stp;           /* whether it is an STP text */
    struct file_id id; /* which file it is */
};

/* Reads a file, or standard input for NULL or '-'. Each of the two says what is wrong, and gives a
   status of status.h: 0 if all is well. */
int input_open(struct input *in, const char *file, struct message *fault);
int input_table(const struct input *in, struct table *t, struct message *fault);

void input_close(struct input *in);

/* All of a file, or its first 16777217 bytes, one more than are taken; NULL if it cannot be
   read. */
char *input_whole(FILE *from, size_t *len);

#endif
