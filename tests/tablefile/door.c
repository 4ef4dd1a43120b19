/* Calls star_read_table on texts of standard input and writes what it said and left to standard
 * output. A text is four bytes of length, least significant first, and its bytes. What is written
 * of it: the answer; a byte that is 1 where the call returned 1, every guard byte stands, a refusal
 * left every column as it was, and rows and names past those read kept their content; where the
 * text is read, the rows in use, and of each row and name what the columns hold. Every call runs in
 * a thread with 64 KiB of stack. */
#include <pthread.h>
#include <stdio.h>
#include <stdlib.h>
#include <string.h>

#include "star.h"

enum { ROWS = STAR_MAX_ROWS, NAMES = STAR_MAX_JUNCTIONS, GUARD = 32, STACK = 64 * 1024 };

struct lent {
    uint8_t before[GUARD];
    uint64_t in_use[STAR_COLUMN_WORDS];
    uint8_t guard1[GUARD], left[ROWS], guard2[GUARD], right[ROWS], guard3[GUARD];
    uint8_t weight[4 * ROWS], guard4[GUARD], mark[ROWS], guard5[GUARD];
    uint32_t from[NAMES];
    uint8_t guard6[GUARD];
    uint32_t to[NAMES];
    uint8_t guard7[GUARD];
    uint32_t at[ROWS];
    uint8_t guard8[GUARD], answer[STAR_ANSWER_BYTES], after[GUARD];
};

static struct lent now, was;
static uint8_t *text;
static size_t len;
static uint32_t returned;

static void *call(void *unused) {
    struct lent *l = &now;
    returned = star_read_table(text, len, l->in_use, STAR_COLUMN_WORDS, l->left, ROWS, l->right,
                               ROWS, l->weight, 4 * ROWS, l->mark, ROWS, l->from, NAMES, l->to,
                               NAMES, l->at, ROWS, l->answer, sizeof l->answer);
    return unused;
}

static void on_small_stack(void) {
    pthread_attr_t small;
    pthread_t thread;
    if (pthread_attr_init(&small) || pthread_attr_setstacksize(&small, STACK) ||
        pthread_create(&thread, &small, call, NULL) || pthread_join(thread, NULL))
        abort();
    pthread_attr_destroy(&small);
}

/* What the call may have changed is put back; then nothing else may differ. */
static int kept(void) {
    struct lent back = now;
    size_t m = 0, names = 0;
    if (now.answer[0] == STAR_PASSED) {
        names = now.answer[2] + 256u * now.answer[3];
        m = now.answer[4] + 256u * now.answer[5];
        memcpy(back.in_use, was.in_use, sizeof was.in_use);
    }
    if (m > ROWS || names > NAMES) return 0;
    memcpy(back.left, was.left, m);
    memcpy(back.right, was.right, m);
    memcpy(back.weight, was.weight, 4 * m);
    memcpy(back.mark, was.mark, m);
    memcpy(back.from, was.from, 4 * names);
    memcpy(back.to, was.to, 4 * names);
    memcpy(back.at, was.at, 4 * m);
    memcpy(back.answer, was.answer, sizeof was.answer);
    return returned == 1 && memcmp(&back, &was, sizeof was) == 0;
}

static void put(const void *from, size_t size) {
    if (fwrite(from, 1, size, stdout) != size) exit(1);
}

static void tell(void) {
    size_t names = now.answer[2] + 256u * now.answer[3], m = now.answer[4] + 256u * now.answer[5];
    uint8_t whole = (uint8_t)kept();
    put(now.answer, sizeof now.answer);
    put(&whole, 1);
    if (now.answer[0] != STAR_PASSED || !whole) return;
    put(now.in_use, sizeof now.in_use);
    put(now.left, m);
    put(now.right, m);
    put(now.weight, 4 * m);
    put(now.mark, m);
    put(now.at, 4 * m);
    put(now.from, 4 * names);
    put(now.to, 4 * names);
}

int main(void) {
    uint8_t size[4];
    unsigned fill = 1;
    while (fread(size, 1, sizeof size, stdin) == sizeof size) {
        size_t i;
        len =
            (size_t)size[0] | (size_t)size[1] << 8 | (size_t)size[2] << 16 | (size_t)size[3] << 24;
        text = malloc(len ? len : 1);
        if (!text || fread(text, 1, len, stdin) != len) return 1;
        for (i = 0; i < sizeof was; i++)
            ((uint8_t *)&was)[i] = (uint8_t)((fill = fill * 1103515245u + 12345u) >> 16);
        now = was;
        on_small_stack();
        tell();
        free(text);
    }
    return fflush(stdout) != 0;
}
