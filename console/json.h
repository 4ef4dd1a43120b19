/* The objects of --json: what a command tells, with its keys in the order in which they are
   written. */
#ifndef CONSOLE_JSON_H
#define CONSOLE_JSON_H

#include "commands.h"

struct json {
    FILE *to;
    int any; /* whether something stands before, in the object or list at hand */
};

/* One object: what every command has, then what is written between the two. The verdict is one
   word. */
void json_begin(struct json *j, FILE *to, const struct options *with, const char *verdict,
                int status);
void json_end(struct json *j);

/* A value with its key, which is NULL in a list. */
void json_open(struct json *j, const char *key, char bracket);
void json_close(struct json *j, char bracket);
void json_text(struct json *j, const char *key, const char *text);
void json_number(struct json *j, const char *key, int64_t number);
void json_truth(struct json *j, const char *key, int truth);
void json_numbers(struct json *j, const char *key, const unsigned *numbers, size_t count);

/* Trench i as an object; without its closing bracket, so that more keys can follow; and those of
   some numbers that are marked 1 in a column. */
void json_trench(struct json *j, const char *key, const struct table *t, size_t i);
void json_trench_open(struct json *j, const char *key, const struct table *t, size_t i);
void json_rows(struct json *j, const char *key, const struct table *t, const uint8_t *mark,
               size_t from, size_t last);

/* The refusal that was put in words last, with these words: its number, its place and its line
   where it has them. */
void json_refusal(struct json *j, const char *words);

/* The whole object of a fault that ends a command: a refusal, input that cannot be read, wrong
   usage. */
void json_fault(FILE *to, const struct options *with, int status, const char *words);

/* The object of a command whose result is a file: it goes to standard output. The first gives 0
   where that cannot be opened, the second a status. */
int json_beside(struct json *j, struct output *own, const struct options *with,
                const char *verdict);
int json_beside_end(struct json *j, struct output *own);

/* Tells a refusal as a command's result, in words or as an object, on standard error where the
   result is a table; gives a status. */
int tell_refused(struct output *o, const struct options *with, const struct message *words);

#endif
