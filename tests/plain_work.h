/* A plain implementation of what the doors of working tables answer: the rows in use are listed,
   and the plain implementation of the other doors is asked about a table of these rows alone. */
#ifndef TESTS_PLAIN_WORK_H
#define TESTS_PLAIN_WORK_H

#include "plain.h"

/* The rows in use, and how many words are lent for them. */
struct in_use {
    uint64_t *words;
    size_t count;
};

/* The list of numbers. */
struct numbers {
    uint32_t *at;
    size_t count;
};

/* A call's mark column is read and written by the first five alone; its n is not looked at by the
   others. */
uint32_t plain_work_cst(struct in_use u, const struct call *c, uint8_t *answer, size_t answer_len);
uint32_t plain_work_other(struct in_use u, const struct call *c, uint8_t *answer,
                          size_t answer_len);
uint32_t plain_work_mst1(struct in_use u, const struct call *c, uint8_t *answer, size_t answer_len);
uint32_t plain_work_paths(struct in_use u, const struct call *c, uint32_t s, uint64_t *matrix,
                          size_t words, uint8_t *answer, size_t answer_len);

uint32_t plain_work_total(struct in_use u, const struct call *c, uint8_t *answer,
                          size_t answer_len);

uint32_t plain_strike(struct in_use u, uint32_t row, uint8_t *answer, size_t answer_len);
uint32_t plain_restore(struct in_use u, uint32_t row, uint8_t *answer, size_t answer_len);
uint32_t plain_add(struct in_use u, const struct call *c, struct numbers to, uint8_t a, uint8_t b,
                   int32_t price, uint8_t *answer, size_t answer_len);
uint32_t plain_merge(struct in_use u, const struct call *c, struct numbers to, uint8_t *answer,
                     size_t answer_len);
uint32_t plain_carry(struct numbers to, uint8_t *mark, size_t mark_len, uint8_t *answer,
                     size_t answer_len);

#endif
