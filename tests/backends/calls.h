/* Random calls of every door that the header declares: plain and working, right and damaged. */
#ifndef BACKENDS_CALLS_H
#define BACKENDS_CALLS_H

#include <stddef.h>
#include <stdint.h>

enum { MOST_PARAMETERS = 14, GUARD = 32, ARENA = 384 << 10 };

/* An argument: a number, or bytes that are lent. */
struct value {
    int64_t number;
    uint8_t *bytes;
    size_t length;
};

typedef void (*door_pointer)(void);

/* A door: how it is called, its parameters, its refusals in a list that ends in 0, and the stack
 * that the header says it takes. A parameter of size 0 is a number. */
struct door {
    const char *name;
    uint32_t (*call)(door_pointer at, const struct value *v);
    unsigned count;
    struct {
        const char *name;
        unsigned size, is_const;
    } p[MOST_PARAMETERS];
    unsigned char refusals[16];
    size_t stack;
};

/* Made by doors.py from the header; doors_words has the same as JSON. */
extern const struct door doors[];
extern const unsigned doors_count;
extern const char *const doors_words[];

/* A call: its arguments, in memory of its own with guard bytes around each, and what the table
 * that it lends has. */
struct call {
    const struct door *door;
    struct value v[MOST_PARAMETERS];
    uint32_t n;
    size_t rows, last; /* the rows in use, and the last of them */
    size_t end;        /* the bytes of the memory that are taken */
    uint8_t *memory;
};

/* Makes a random call; some of them are damaged so that one of the door's refusals is likely. */
void call_make(struct call *c, const struct door *door);

/* The parameter of a name; -1 where the door has none. */
int call_parameter(const struct door *door, const char *name);

/* A copy of a call into other memory of ARENA bytes. */
void call_copy(struct call *to, const struct call *from);

/* The bytes around the arguments are as they were made. */
int call_guarded(const struct call *c);

#endif
