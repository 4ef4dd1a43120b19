/* The stack that each door takes: a thread's stack is painted below the caller, the door is called,
 * and the lowest byte that has changed is looked for.
 * usage: stack LIBSTAR.so CALLS   CALLS random calls of each door that take a table of more than
 * 256 rows, beside the deepest texts; what is found has to be three quarters of what the header
 * says at most. Prints a line for each door, and 'N passed, M failed'. */
#define _GNU_SOURCE
#include <pthread.h>
#include <stdio.h>
#include <stdlib.h>
#include <string.h>
#include <sys/mman.h>

#include "calls.h"
#include "library.h"
#include "shared.h"
#include "star.h"

enum { ROOM = 4 << 20, MARGIN = 4096, PAINT = 0x5C };

struct painted {
    door_pointer at;
    struct call *call;
    uint8_t *lowest; /* the stack's lowest byte */
    size_t taken;
};

/* Paints what is below this frame, calls, and looks for the lowest byte that is not as painted. */
static void *painted_call(void *with) {
    struct painted *p = with;
    uint8_t here = 0, *low = p->lowest + MARGIN;
    volatile uint8_t *paint;
    size_t paint_size = (size_t)(&here - low) - 256;
    for (paint = low; paint < low + paint_size; paint++) *paint = PAINT;
    p->call->door->call(p->at, p->call->v);
    for (paint = low; *paint == PAINT; paint++)
        if (paint == &here) break;
    p->taken = (size_t)((volatile uint8_t *)&here - paint);
    return NULL;
}

static size_t stack_taken(door_pointer at, struct call *c, uint8_t *stack) {
    struct painted p;
    pthread_attr_t attr;
    pthread_t thread;
    p.at = at;
    p.call = c;
    p.lowest = stack;
    p.taken = ROOM;
    if (pthread_attr_init(&attr) || pthread_attr_setstack(&attr, stack, ROOM) ||
        pthread_create(&thread, &attr, painted_call, &p) || pthread_join(thread, NULL))
        exit(2);
    pthread_attr_destroy(&attr);
    return p.taken;
}

/* The deepest texts: the most sections that a text may have, whole or cut off. */
static size_t deepest_text(uint8_t *text, int kind) {
    static const char *const sections[] = {"SECTION\nEND\n", "SECTION a\nEND\n", "SECTION\n"};
    const char *section = sections[kind % 3], *end = kind < 3 ? "EOF" : "";
    size_t length = strlen(section), at = 9;
    memcpy(text, "33D32945\n", 9);
    for (; at + length + 3 <= STAR_MAX_TEXT; at += length) memcpy(text + at, section, length);
    memcpy(text + at, end, strlen(end));
    return at + strlen(end);
}

static size_t deepest(door_pointer at, struct call *c, uint8_t *stack) {
    static uint8_t text[STAR_MAX_TEXT + 16];
    size_t most = 0, taken;
    int kind;
    for (kind = 0; kind < 6; kind++) {
        uint8_t *lent = c->v[0].bytes;
        size_t length = c->v[0].length;
        c->v[0].length = deepest_text(text, kind);
        c->v[0].bytes = text;
        taken = stack_taken(at, c, stack);
        if (taken > most) most = taken;
        c->v[0].bytes = lent;
        c->v[0].length = length;
    }
    return most;
}

/* The most that a door takes, on so many calls over large tables. */
static size_t door_taken(const struct door *door, door_pointer at, uint8_t *stack,
                         unsigned long calls) {
    static struct call c;
    size_t most = 0, taken;
    if (!c.memory && !(c.memory = malloc(ARENA))) exit(2);
    while (calls > 0) {
        call_make(&c, door);
        if (c.last <= 256) continue;
        taken = stack_taken(at, &c, stack);
        if (taken > most) most = taken;
        calls--;
    }
    if (strcmp(door->p[0].name, "text") && strcmp(door->p[0].name, "stp")) return most;
    taken = deepest(at, &c, stack);
    return taken > most ? taken : most;
}

/* The control: a call that takes a known amount is measured as that. */
enum { KNOWN = 100000 };

static uint32_t known_call(door_pointer at, const struct value *v) {
    volatile uint8_t bytes[KNOWN];
    bytes[0] = (uint8_t)(v[0].number + (at != NULL));
    return bytes[0];
}

static int known_found(uint8_t *stack) {
    static const struct door known = {"known", known_call, 0, {{"", 0, 0}}, {0}, KNOWN};
    struct call c;
    size_t taken;
    memset(&c, 0, sizeof c);
    c.door = &known;
    taken = stack_taken(NULL, &c, stack);
    return taken >= KNOWN && taken < KNOWN + 1024;
}

int main(int count, char **words) {
    unsigned k, failed;
    uint8_t *stack = mmap(NULL, ROOM, PROT_READ | PROT_WRITE, MAP_PRIVATE | MAP_ANONYMOUS, -1, 0);
    void *library;
    if (count < 3 || stack == MAP_FAILED) return 2;
    failed = !known_found(stack);
    if (failed) printf("a call that takes a known amount of stack is not measured as that\n");
    library = library_open(words[1]);
    for (k = 0; k < doors_count; k++) {
        size_t taken = door_taken(&doors[k], library_door(library, &doors[k]), stack,
                                  strtoul(words[2], NULL, 10));
        size_t said = doors[k].stack;
        printf("%s takes %lu bytes of stack, %lu %% of %lu KiB\n", doors[k].name,
               (unsigned long)taken, (unsigned long)(100 * taken / said),
               (unsigned long)(said >> 10));
        failed += 4 * taken > 3 * said;
    }
    printf("%u passed, %u failed\n", doors_count + 1 - failed, failed);
    return failed != 0;
}
