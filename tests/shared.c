#define _POSIX_C_SOURCE 200809L
#include "shared.h"

#include <pthread.h>
#include <stdio.h>
#include <stdlib.h>
#include <string.h>

#include "random.h"
#include "star.h"

int exact_lengths;
unsigned long refused[32];

static unsigned long passed, failed;
static uint64_t state = RANDOM_START;

uint64_t bits(void) { return random_bits(&state); }

void random_start(uint64_t start) { state = RANDOM_START ^ start * 11400714819323198485u; }

uint32_t any(uint32_t below) { return below ? (uint32_t)((bits() >> 20) % below) : 0; }

void random_bytes(void *to, size_t count) {
    uint8_t *at = to;
    while (count > 0) {
        uint64_t word = bits();
        size_t some = count < sizeof word ? count : sizeof word;
        memcpy(at, &word, some);
        at += some;
        count -= some;
    }
}

int32_t limit_price(void) {
    static const int32_t limits[] = {STAR_MIN_PRICE,     STAR_MIN_PRICE + 1, -1, 0, 1,
                                     STAR_MAX_PRICE - 1, STAR_MAX_PRICE};
    return limits[any(sizeof limits / sizeof limits[0])];
}

/* The round in which a pair was last given. */
static uint32_t given[256][256], this_round;

void no_pair_given(void) { this_round++; }

static int first_given(struct pair p) {
    uint32_t *of = p.a < p.b ? &given[p.a][p.b] : &given[p.b][p.a];
    if (*of == this_round) return 0;
    *of = this_round;
    return 1;
}

struct pair any_pair(uint32_t n, size_t joined, int repeats, unsigned most) {
    struct pair p;
    unsigned tries = 0;
    p.a = joined ? (unsigned)joined + 1 : 1 + any(n);
    p.b = 1 + any(joined ? (uint32_t)joined : n);
    while (n > 1 && (p.a == p.b || (!first_given(p) && !repeats)) && ++tries < most) {
        p.a = 1 + any(n);
        p.b = 1 + any(n);
    }
    return p;
}

void wrong_length(size_t *len, size_t most) {
    *len = any(6) == 0 ? 0 : *len + (any(2) ? 1 : (size_t)-1);
    if (*len > most) *len = 0;
}

void put_row(uint8_t *left, uint8_t *right, uint8_t *weight, size_t i, unsigned a, unsigned b,
             int32_t price) {
    left[i - 1] = (uint8_t)a;
    right[i - 1] = (uint8_t)b;
    star_put_price(weight, i - 1, price);
}

void put_yard(uint8_t *left, uint8_t *right, uint8_t *weight) {
    static const uint8_t a[] = {1, 2, 3, 1, 1}, b[] = {2, 3, 4, 4, 3}, price[] = {5, 3, 5, 4, 6};
    size_t i;
    for (i = 0; i < 5; i++) put_row(left, right, weight, i + 1, a[i], b[i], price[i]);
}

void tell(int ok, const char *what) {
    if (ok) passed++;
    else if (failed++ < 10)
        fprintf(stderr, "%s differs, seed state %llx\n", what, (unsigned long long)state);
}

int told(void) {
    printf("%lu passed, %lu failed\n", passed, failed);
    return failed != 0;
}

void share(unsigned long part, unsigned long one_of, unsigned long calls, const char *what) {
    tell(calls < 2000 || one_of * part >= calls, what);
}

void share_refused(const unsigned *numbers, unsigned long one_of, unsigned long calls) {
    for (; *numbers; numbers++) share(refused[*numbers], one_of, calls, "the share of a refusal");
}

void print_refused(const unsigned *numbers) {
    const unsigned *number;
    for (number = numbers; *number; number++)
        printf(number == numbers ? "refused %u %lu times" : ", %u %lu", *number, refused[*number]);
}

void *lend(void *from, size_t bytes) {
    void *copy = from;
    if (bytes == 0) return NULL;
    if (exact_lengths && (copy = malloc(bytes)) == NULL) exit(3);
    if (exact_lengths) memcpy(copy, from, bytes);
    return copy;
}

void back(void *to, void *lent, size_t bytes) {
    if (!exact_lengths || bytes == 0) return;
    memcpy(to, lent, bytes);
    free(lent);
}

int on_small_stack(void *(*called)(void *), void *with, size_t stack) {
    pthread_attr_t attr;
    pthread_t thread;
    return !pthread_attr_init(&attr) && !pthread_attr_setstacksize(&attr, stack) &&
           !pthread_create(&thread, &attr, called, with) && !pthread_join(thread, NULL);
}

unsigned long run(int count, char **words, unsigned long otherwise, void (*known)(void),
                  void (*table)(unsigned long k)) {
    unsigned long tables = count > 1 ? strtoul(words[1], NULL, 10) : otherwise, k;
    exact_lengths = count > 2 && strcmp(words[2], "exact") == 0;
    known();
    for (k = 0; k < tables; k++) table(k);
    return tables;
}
