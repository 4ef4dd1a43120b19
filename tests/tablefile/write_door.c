/* Calls star_write_table on tables of standard input and writes what it said and left to standard
 * output. A table is twelve numbers of four bytes, least significant first: n, the separator, the
 * bytes of left, right, weight, mark and text, the words of the rows in use, the names' beginnings
 * and ends, and the bytes lent for the text and the answer; then what is lent of them, but for the
 * last two. What is written of it: four bytes that are 1 where the call returned 1, the answer; a
 * byte that is 1 where every guard byte stands and what is lent for the text is as it was behind
 * the text; and the text. Every call runs in a thread with 64 KiB of stack. */
#include <pthread.h>
#include <stdio.h>
#include <stdlib.h>
#include <string.h>

#include "star.h"

enum { GUARD = 32, STACK = 64 * 1024, FILL = 0xA5 };
enum { N, PARTS, LEFT, RIGHT, WEIGHT, MARK, TEXT, WORDS, FROM, TO, OUT, ANSWER, SIZES };

static uint32_t size[SIZES], returned;
static uint8_t *lent[SIZES], *was[SIZES];

static size_t bytes_of(int k) {
    return k < LEFT ? 0 : size[k] * (k == WORDS ? 8u : k == FROM || k == TO ? 4u : 1u);
}

static void *call(void *unused) {
    returned = star_write_table(size[N], (void *)lent[WORDS], size[WORDS], lent[LEFT], size[LEFT],
                                lent[RIGHT], size[RIGHT], lent[WEIGHT], size[WEIGHT], lent[MARK],
                                size[MARK], lent[TEXT], size[TEXT], (void *)lent[FROM], size[FROM],
                                (void *)lent[TO], size[TO], (uint8_t)size[PARTS], lent[OUT],
                                size[OUT], lent[ANSWER], size[ANSWER]);
    return unused;
}

static void on_small_stack(void) {
    pthread_attr_t small;
    pthread_t thread;
    if (pthread_attr_init(&small) || pthread_attr_setstacksize(&small, STACK) ||
        pthread_create(&thread, &small, call, NULL) || pthread_join(thread, NULL))
        abort();
    pthread_attr_destroy(&small);
}

/* Reads what is lent into room of its own, with guard bytes around it. */
static int take(int k) {
    size_t length = bytes_of(k);
    was[k] = malloc(length + 2 * GUARD);
    lent[k] = malloc(length + 2 * GUARD);
    if (!was[k] || !lent[k]) return 0;
    memset(was[k], FILL, length + 2 * GUARD);
    if (k < OUT && fread(was[k] + GUARD, 1, length, stdin) != length) return 0;
    memcpy(lent[k], was[k], length + 2 * GUARD);
    lent[k] += GUARD;
    return 1;
}

/* The bytes that the call may have changed are put back; then nothing else may differ. */
static int kept(size_t length) {
    int k, whole = 1;
    if (length > size[OUT]) return 0;
    for (k = LEFT; k < SIZES; k++) {
        size_t from = k == OUT ? length : k == ANSWER && returned ? size[k] : 0;
        memcpy(was[k] + GUARD, lent[k], from);
        whole &= memcmp(was[k], lent[k] - GUARD, bytes_of(k) + 2 * GUARD) == 0;
    }
    return whole;
}

static void put(const void *from, size_t length) {
    if (fwrite(from, 1, length, stdout) != length) exit(1);
}

static void tell(void) {
    static const uint8_t none[STAR_ANSWER_BYTES];
    const uint8_t *answer = returned ? lent[ANSWER] : none;
    struct star_written w = star_read_written(answer);
    uint8_t whole = (uint8_t)kept(w.length);
    put(&returned, 4);
    put(answer, STAR_ANSWER_BYTES);
    put(&whole, 1);
    if (whole) put(lent[OUT], w.length);
}

int main(void) {
    while (fread(size, 4, SIZES, stdin) == SIZES) {
        int k;
        for (k = LEFT; k < SIZES; k++)
            if (!take(k)) return 1;
        on_small_stack();
        tell();
        for (k = LEFT; k < SIZES; k++) {
            free(was[k]);
            free(lent[k] - GUARD);
        }
    }
    return fflush(stdout) != 0;
}
