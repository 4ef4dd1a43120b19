/* A plain implementation of what the doors answer that are asked about a table: the quote, the
   breaking price, which of two plans costs less, and the dig list. The totals are those of plain.c,
   by sorted rows and union-find; the breaking price is found by a search over thresholds, on no
   tree. */
#ifndef TESTS_PLAIN_ASKED_H
#define TESTS_PLAIN_ASKED_H

#include "plain_work.h"

/* A mark column that is lent. */
struct marks {
    const uint8_t *at;
    size_t len;
};

/* A call's own mark column is looked at by plain_plan_digs alone. Each is given a number of rows in
   use, or a null pointer for a plain table. */
uint32_t plain_quote(const struct in_use *u, const struct call *c, uint32_t row, int32_t price,
                     uint8_t *answer, size_t answer_len);
uint32_t plain_breaking(const struct in_use *u, const struct call *c, uint32_t row, uint8_t *answer,
                        size_t answer_len);
/* The dig list of the rows that plain_mst1 marks, put at the start of a text. */
uint32_t plain_digs(const struct in_use *u, const struct call *c, uint8_t *text, size_t text_len,
                    uint8_t *answer, size_t answer_len);
/* That of the call's own marks. */
uint32_t plain_plan_digs(const struct in_use *u, const struct call *c, uint8_t *text,
                         size_t text_len, uint8_t *answer, size_t answer_len);

uint32_t plain_which(const struct in_use *u, const struct call *c, struct marks first,
                     struct marks second, uint8_t *answer, size_t answer_len);

#endif
