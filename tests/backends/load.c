/* Eight threads at once, random calls of all doors: what each call returns, and every byte that it
 * was lent and around it, is what one thread alone got; and memory does not grow.
 * usage: load LIBSTAR.so SECONDS [bytes | memory]   Ends in one line 'N passed, M failed'.
 * The controls, which have to fail: bytes changes a byte after a call now and then, memory keeps
 * some of the memory that a thread takes. */
#define _POSIX_C_SOURCE 200809L
#include <pthread.h>
#include <stdio.h>
#include <stdlib.h>
#include <string.h>
#include <time.h>
#include <unistd.h>

#include "calls.h"
#include "library.h"
#include "shared.h"

enum { THREADS = 8, OF_EACH = 60, MOST_DOORS = 64, MOST_CALLS = MOST_DOORS * OF_EACH };

/* A call as it is made, and what came of it in one thread alone. */
struct known {
    door_pointer at;
    struct call before, after;
    uint32_t result;
};

struct work {
    uint64_t state;
    unsigned long calls, different;
};

static struct known known[MOST_CALLS];
static unsigned known_count;
static time_t last;
static int wrong_bytes, wrong_memory;

static void *taken(size_t bytes) {
    void *at = malloc(bytes);
    if (!at) exit(2);
    return at;
}

static void known_make(void *library, const struct door *door) {
    static struct call c;
    struct known *k = &known[known_count++];
    if (!c.memory) c.memory = taken(ARENA);
    call_make(&c, door);
    k->before.memory = taken(c.end + GUARD);
    k->after.memory = taken(c.end + GUARD);
    call_copy(&k->before, &c);
    call_copy(&k->after, &c);
    k->at = library_door(library, door);
    k->result = door->call(k->at, k->after.v);
}

static uint64_t next(uint64_t *state) {
    *state = *state * 6364136223846793005u + 1442695040888963407u;
    return *state >> 33;
}

/* The same call once more, in memory of the thread's own. */
static int same(const struct known *k, struct call *own, int damaged) {
    uint32_t result;
    call_copy(own, &k->before);
    result = own->door->call(k->at, own->v);
    if (damaged) own->memory[GUARD] ^= 1;
    return result == k->result && !memcmp(own->memory, k->after.memory, own->end + GUARD);
}

static void *work(void *with) {
    struct work *w = with;
    struct call own;
    own.memory = taken(ARENA);
    while (time(NULL) < last) {
        const struct known *k = &known[next(&w->state) % known_count];
        w->different += !same(k, &own, wrong_bytes && w->calls % 50 == 49);
        w->calls++;
        if (wrong_memory && w->calls % 10 == 0) memset(taken(1 << 16), 1, 1 << 16);
    }
    free(own.memory);
    return NULL;
}

/* The memory that the program has, in KiB. */
static unsigned long memory_now(void) {
    unsigned long whole = 0, present = 0;
    FILE *file = fopen("/proc/self/statm", "r");
    if (!file || fscanf(file, "%lu %lu", &whole, &present) != 2) exit(2);
    fclose(file);
    return present * (unsigned long)sysconf(_SC_PAGESIZE) / 1024;
}

/* Eight threads for so many seconds; adds what they counted. */
static void together(struct work *all, long seconds) {
    struct work works[THREADS];
    pthread_t threads[THREADS];
    int k;
    last = time(NULL) + seconds;
    for (k = 0; k < THREADS; k++) {
        works[k].state = bits();
        works[k].calls = works[k].different = 0;
        if (pthread_create(&threads[k], NULL, work, &works[k]) != 0) exit(2);
    }
    for (k = 0; k < THREADS; k++) {
        pthread_join(threads[k], NULL);
        all->calls += works[k].calls;
        all->different += works[k].different;
    }
}

int main(int count, char **words) {
    struct work all = {0, 0, 0};
    unsigned long before, after, failed;
    unsigned door, k;
    void *library;
    if (count < 3) return 2;
    wrong_bytes = count > 3 && strcmp(words[3], "bytes") == 0;
    wrong_memory = count > 3 && strcmp(words[3], "memory") == 0;
    library = library_open(words[1]);
    for (door = 0; door < doors_count; door++)
        for (k = 0; k < OF_EACH; k++) known_make(library, &doors[door]);
    together(&all, 1);
    before = memory_now();
    together(&all, strtol(words[2], NULL, 10));
    after = memory_now();
    printf("%lu calls in %d threads, %lu differ from one thread's; memory %lu KiB, then %lu KiB\n",
           all.calls, THREADS, all.different, before, after);
    failed = (all.different != 0 || all.calls == 0) + (after > before + 1024);
    printf("%lu passed, %lu failed\n", 2 - failed, failed);
    return failed != 0;
}
