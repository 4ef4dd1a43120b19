/* Eight threads at once, each with tables of its own, and all over one table that none of them
 * writes: what each answers is what one thread alone answers.
 * usage: threads_test [ROUNDS]   prints one line 'N passed, M failed' at its end
 * Compiled with RACE all mark rows of one table, which a race detector has to find. */
#include <pthread.h>
#include <stdio.h>
#include <stdlib.h>
#include <string.h>

#include "random.h"
#include "star.h"

enum { THREADS = 8, JUNCTIONS = 60, ROWS = 200 };

struct work {
    uint64_t seed;
    unsigned long rounds;
    uint64_t found; /* all answers, mixed */
};

static struct star_table one;

static unsigned next(uint64_t *seed) { return (unsigned)(random_bits(seed) >> 40); }

static void mix(uint64_t *found, int64_t with) {
    *found = (*found ^ (uint64_t)with) * 1099511628211U;
}

/* A connected table without repeated rows: a chain, and rows to the second, the third ..
   neighbour. */
static void fill(struct star_table *t, uint64_t *seed) {
    unsigned row, gap = 1, at = 0;
    star_table_init(t, JUNCTIONS);
    for (row = 1; row <= ROWS; row++) {
        if (++at + gap > JUNCTIONS) {
            gap++;
            at = 1;
        }
        star_table_add(t, at, at + gap, (int32_t)(next(seed) % 1000));
    }
}

static void ask(const struct star_table *t, uint64_t *found, unsigned row) {
    uint8_t groups[JUNCTIONS], rings[STAR_MAX_ROWS];
    mix(found, star_table_check(t).total);
    mix(found, star_table_quote(t, row, 7).after);
    mix(found, star_table_breaking(t, row).amount);
    mix(found, star_table_best(t).least);
    mix(found, star_table_total(t).amount);
    mix(found, star_table_groups(t, groups, rings).amount);
}

static void *work(void *with) {
    struct work *w = with;
    struct star_table *t = malloc(sizeof *t), *marked = t;
    unsigned long k;
    if (!t) return NULL;
#ifdef RACE
    marked = &one;
#endif
    for (k = 0; k < w->rounds; k++) {
        fill(t, &w->seed);
        mix(&w->found, star_table_build(t).total);
        star_table_mark(marked, 1 + next(&w->seed) % ROWS, 1);
        star_table_strike(t, 1 + next(&w->seed) % ROWS);
        ask(t, &w->found, 1 + next(&w->seed) % ROWS);
        mix(&w->found, star_table_mend(t, NULL).steps);
        star_table_merge(t);
        mix(&w->found, star_table_other(t).total);
        ask(&one, &w->found, 1 + next(&w->seed) % ROWS);
    }
    free(t);
    return NULL;
}

int main(int count, char **words) {
    unsigned long rounds = count > 1 ? strtoul(words[1], NULL, 10) : 500;
    uint64_t seed = RANDOM_START;
    unsigned k, failed = 0;
    struct work alone[THREADS], together[THREADS];
    pthread_t threads[THREADS];
    fill(&one, &seed);
    star_table_build(&one);
    for (k = 0; k < THREADS; k++) {
        alone[k].seed = RANDOM_START + k;
        alone[k].rounds = rounds;
        alone[k].found = 0;
        together[k] = alone[k];
        work(&alone[k]);
    }
    for (k = 0; k < THREADS; k++)
        if (pthread_create(&threads[k], NULL, work, &together[k]) != 0) return 2;
    for (k = 0; k < THREADS; k++) pthread_join(threads[k], NULL);
    for (k = 0; k < THREADS; k++) failed += together[k].found != alone[k].found;
    printf("%u passed, %u failed\n", THREADS - failed, failed);
    return failed != 0;
}
