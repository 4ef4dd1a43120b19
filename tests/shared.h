/* What the tests of doors have in common: random numbers, rows, counts, columns as they are lent,
   small stacks, and the loop over many tables. */
#ifndef TESTS_SHARED_H
#define TESTS_SHARED_H

#include <stddef.h>
#include <stdint.h>

/* Random numbers with a fixed start: below a number, and of 64 bits; and bytes. */
uint32_t any(uint32_t below);
uint64_t bits(void);
void random_bytes(void *to, size_t count);

/* Another start of the random numbers: what is drawn from here on is that of this start. */
void random_start(uint64_t start);

/* A price at a limit or at 0, or next to one of these. */
int32_t limit_price(void);

/* A pair of junctions for a row: the next junction and one of the `joined` that are joined already,
   or any two where joined is 0. It is drawn anew, fewer than `most` times, while it is no pair, or
   was given since no_pair_given was called, in either direction; with repeats such a pair is
   taken. */
struct pair {
    unsigned a, b;
};
void no_pair_given(void);
struct pair any_pair(uint32_t n, size_t joined, int repeats, unsigned most);

/* A length one too small or too large, or 0; 0 if it were more than `most`. */
void wrong_length(size_t *len, size_t most);

/* Puts row i, counted from 1. And the rows of the yard: 1-2 5, 2-3 3, 3-4 5, 1-4 4, 1-3 6. */
void put_row(uint8_t *left, uint8_t *right, uint8_t *weight, size_t i, unsigned a, unsigned b,
             int32_t price);
void put_yard(uint8_t *left, uint8_t *right, uint8_t *weight);

/* Counts a comparison; the first that fail are told. And the last line of a test: 'N passed, M
   failed'; what it gives is the exit status. */
void tell(int ok, const char *what);
int told(void);

/* Counts whether one of so many calls was of a kind; of fewer than 2,000 calls nothing is
   expected. */
void share(unsigned long part, unsigned long one_of, unsigned long calls, const char *what);

/* How often each refusal came. Of the numbers in a list that ends in 0: their shares, and 'refused
   3 20 times, 4 7'. */
extern unsigned long refused[32];
void share_refused(const unsigned *numbers, unsigned long one_of, unsigned long calls);
void print_refused(const unsigned *numbers);

/* An empty column is lent as a null pointer. With exact_lengths set, each column is lent from
   memory of its own length, for a memory checker. */
extern int exact_lengths;
void *lend(void *from, size_t bytes);
void back(void *to, void *lent, size_t bytes);

/* Runs a function in a thread with a stack of so many bytes; 0 if that cannot be. STACK: what the
   header asks of most doors, STACK_MEND of star_mend and star_work_mend, STACK_TEXT of star_import
   and star_digs_text. */
enum { STACK = 160 << 10, STACK_MEND = 384 << 10, STACK_TEXT = 1280 << 10 };
int on_small_stack(void *(*called)(void *), void *with, size_t stack);

/* Runs the cases whose answers are known, and one table after the other; gives the number of
   tables. That is the first word of the command line, or `otherwise`; a second word 'exact' sets
   exact_lengths. */
unsigned long run(int count, char **words, unsigned long otherwise, void (*known)(void),
                  void (*table)(unsigned long k));

#endif
