/* Random calls of every door, made in several libraries that were compiled from the same sources:
 * what each returns, and every byte of what was lent and around it, is compared with the first.
 * usage: backends CALLS START OUT LIBRARY..   CALLS of each door; START of the random numbers.
 *
 * OUT gets the calls and what the first library made of them, for calls.js: a line of JSON, the
 * doors with their parameters; for each call the door's index, each argument (a number, or a length
 * and bytes), the result, and for each lent column 0, or 1 and its bytes where they have changed.
 * COUNTS in the environment: prints what the calls came to, which is tested. DAMAGE: in the second
 * library's place a byte that it was lent is changed after some calls, each of which has to be
 * found. */
#define _POSIX_C_SOURCE 200809L
#include <signal.h>
#include <stdio.h>
#include <stdlib.h>
#include <string.h>
#include <unistd.h>

#include "calls.h"
#include "counts.h"
#include "library.h"
#include "shared.h"

enum { MOST_LIBRARIES = 4 };

static void *library[MOST_LIBRARIES];
static const char *library_name[MOST_LIBRARIES];
static int libraries;
static unsigned long different[MOST_LIBRARIES], damaged;
static struct call made, first, other;

/* What is called at the time: a check that fails in a library ends the program. */
static const char *called_door = "no door", *called_library = "";

static void ended(int number) {
    static char line[200];
    int length =
        snprintf(line, sizeof line, "%s of %s: signal %d\n", called_door, called_library, number);
    if (write(1, line, (size_t)length) < 0) _exit(4);
    _exit(3);
}

static uint32_t call_in(int which, struct call *c) {
    door_pointer door = library_door(library[which], c->door);
    called_door = c->door->name;
    called_library = library_name[which];
    return c->door->call(door, c->v);
}

static int same_column(const struct call *a, const struct call *b, unsigned k) {
    return a->v[k].length == 0 || memcmp(a->v[k].bytes, b->v[k].bytes, a->v[k].length) == 0;
}

/* Columns that are lent to be read are as they were. */
static int kept(const struct call *before, const struct call *after) {
    unsigned k;
    for (k = 0; k < before->door->count; k++)
        if (before->door->p[k].is_const && !same_column(before, after, k)) return 0;
    return 1;
}

static void put_u32(FILE *out, uint32_t number) {
    int k;
    for (k = 0; k < 4; k++) putc((int)(number >> (8 * k) & 255), out);
}

static void put_doors(FILE *out) {
    unsigned k;
    for (k = 0; k < doors_count; k++) fprintf(out, "%c%s", k ? ',' : '[', doors_words[k]);
    fprintf(out, "]\n");
}

static void put_call(FILE *out, const struct call *before, const struct call *after,
                     uint32_t result) {
    unsigned k;
    put_u32(out, (uint32_t)(before->door - doors));
    for (k = 0; k < before->door->count; k++) {
        if (before->door->p[k].size == 0) {
            put_u32(out, (uint32_t)before->v[k].number);
            continue;
        }
        put_u32(out, (uint32_t)before->v[k].length);
        fwrite(before->v[k].bytes, 1, before->v[k].length, out);
    }
    put_u32(out, result);
    for (k = 0; k < before->door->count; k++) {
        int changed = before->door->p[k].size && !same_column(before, after, k);
        if (before->door->p[k].size == 0) continue;
        putc(changed, out);
        if (changed) fwrite(after->v[k].bytes, 1, after->v[k].length, out);
    }
}

/* Changes a bit of some byte between the outermost guards. */
static void damage(struct call *c) {
    if (any(10)) return;
    c->memory[any((uint32_t)(c->end + GUARD))] ^= (uint8_t)(1 << any(8));
    damaged++;
}

static void one_call(const struct door *door, FILE *out) {
    uint32_t result, again;
    int k, good;
    call_make(&made, door);
    call_copy(&first, &made);
    result = call_in(0, &first);
    good = kept(&made, &first) && call_guarded(&first);
    if (!good && different[0]++ < 5) printf("%s writes where it must not\n", door->name);
    for (k = 1; k < libraries; k++) {
        call_copy(&other, &made);
        again = call_in(k, &other);
        if (k == 1 && getenv("DAMAGE")) damage(&other);
        good = again == result && !memcmp(first.memory, other.memory, made.end + GUARD);
        if (!good && different[k]++ < 5 && !getenv("DAMAGE"))
            printf("%s differs in %s\n", door->name, library_name[k]);
    }
    if (out) put_call(out, &made, &first, result);
    counts_add(&made, &first, result);
}

static void open_all(int count, char **names) {
    for (libraries = 0; libraries < count && libraries < MOST_LIBRARIES; libraries++) {
        library_name[libraries] = names[libraries];
        library[libraries] = library_open(names[libraries]);
    }
    made.memory = malloc(ARENA);
    first.memory = malloc(ARENA);
    other.memory = malloc(ARENA);
    if (!made.memory || !first.memory || !other.memory) exit(2);
}

int main(int count, char **words) {
    static const int signals[] = {SIGILL, SIGTRAP, SIGSEGV, SIGBUS, SIGFPE, SIGABRT};
    unsigned long calls, k, passed = 0, failed = 0;
    unsigned door;
    FILE *out = NULL;
    if (count < 5) return 2;
    calls = strtoul(words[1], NULL, 10);
    random_start(strtoul(words[2], NULL, 10));
    if (strcmp(words[3], "-") != 0 && !(out = fopen(words[3], "wb"))) return 2;
    open_all(count - 4, words + 4);
    for (k = 0; k < sizeof signals / sizeof signals[0]; k++) signal(signals[k], ended);
    if (out) put_doors(out);
    for (door = 0; door < doors_count; door++)
        for (k = 0; k < calls; k++) one_call(&doors[door], out);
    if (out && fclose(out) != 0) return 2;
    if (getenv("DAMAGE")) different[1] = different[1] != damaged || damaged == 0;
    if (getenv("COUNTS")) failed += counts_print();
    for (k = 0; k < (unsigned long)libraries; k++) {
        passed += different[k] == 0;
        failed += different[k] != 0;
        if (different[k]) printf("%lu calls differ: %s\n", different[k], library_name[k]);
    }
    printf("%lu passed, %lu failed\n", passed, failed);
    return failed != 0;
}
