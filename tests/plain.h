/* A plain implementation of what the door answers, by other algorithms than the machine's: sorted
   rows and union-find for the tree, parent pointers for paths. */
#ifndef TESTS_PLAIN_H
#define TESTS_PLAIN_H

#include <stddef.h>
#include <stdint.h>

/* What a call hands in; a weight is four bytes, a signed number in two's complement; the mark
   column is written by plain_mst1 alone. */
struct call {
    uint32_t n;
    uint8_t *left, *right, *weight, *mark;
    size_t left_len, right_len, weight_len, mark_len;
};

uint32_t plain_cst(const struct call *c, uint8_t *answer, size_t answer_len);
uint32_t plain_other(const struct call *c, uint8_t *answer, size_t answer_len);
uint32_t plain_mst1(const struct call *c, uint8_t *answer, size_t answer_len);
uint32_t plain_total(const struct call *c, uint8_t *answer, size_t answer_len);

/* The paths from s, by parent pointers. */
uint32_t plain_paths(const struct call *c, uint32_t s, uint64_t *matrix, size_t words,
                     uint8_t *answer, size_t answer_len);

/* The rows of the least tree among rows 1 to m, ties to the upper row, as bytes 0 and 1; returns
   the number chosen. */
size_t plain_tree(uint32_t n, const uint8_t *left, const uint8_t *right, const int32_t *price,
                  size_t m, uint8_t *mark);

#endif
