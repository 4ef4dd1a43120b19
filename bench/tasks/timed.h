/* Times a task: prints its name, its value and the least processor time of a call, in
   microseconds. */
#ifndef TASKS_TIMED_H
#define TASKS_TIMED_H

#include <stdint.h>
#include <stdio.h>
#include <stdlib.h>
#include <string.h>
#include <time.h>

static char *whole_file(const char *name, size_t *len) {
    FILE *from = fopen(name, "rb");
    char *text = (char *)calloc(1, 65536);
    if (!from || !text) return NULL;
    *len = fread(text, 1, 65535, from);
    fclose(from);
    return text;
}

static double timed(int64_t (*task)(void)) {
    double best = 1e9;
    int k, i;
    for (k = 0; k < 25; k++) {
        clock_t began = clock();
        for (i = 0; i < 100; i++) task();
        double one = (double)(clock() - began) / CLOCKS_PER_SEC * 1e6 / 100;
        if (one < best) best = one;
    }
    return best;
}

#define TIMED(task) printf("%s %lld %.1f\n", #task, (long long)task(), timed(task))

#endif
