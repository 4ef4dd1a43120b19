/* The short calls with a fault each, under names of their own. */
#ifndef TESTS_FAULTY_TABLE_H
#define TESTS_FAULTY_TABLE_H

#include "star.h"

void faulty_table_init(struct star_table *t, uint32_t n);
struct star_answer faulty_table_add(struct star_table *t, uint32_t a, uint32_t b, int32_t price);
int faulty_table_mark(struct star_table *t, uint32_t row, int mark);
struct star_answer faulty_table_strike(struct star_table *t, uint32_t row);
struct star_answer faulty_table_restore(struct star_table *t, uint32_t row);
struct star_answer faulty_table_merge(struct star_table *t);
struct star_verdict faulty_table_check(const struct star_table *t);
struct star_verdict faulty_table_other(const struct star_table *t);
struct star_verdict faulty_table_build(struct star_table *t);
struct star_verdict faulty_table_mend(struct star_table *t, struct star_record *records);
struct star_verdict faulty_table_outlets(struct star_table *t, uint32_t junction, uint32_t count);
struct star_verdict faulty_table_districts(struct star_table *t, const uint32_t *ends, size_t count,
                                           uint8_t *forests);
struct star_verdict faulty_table_which(const struct star_table *t, const uint8_t *first,
                                       const uint8_t *second);
struct star_quoted faulty_table_quote(const struct star_table *t, uint32_t row, int32_t price);
struct star_answer faulty_table_breaking(const struct star_table *t, uint32_t row);
struct star_answer faulty_table_digs(const struct star_table *t, uint8_t *text);
struct star_answer faulty_table_plan_digs(const struct star_table *t, uint8_t *text);
struct star_answer faulty_table_total(const struct star_table *t);
struct star_verdict faulty_table_best(const struct star_table *t);
struct star_answer faulty_table_detours(const struct star_table *t, uint32_t *rows);
struct star_answer faulty_table_groups(const struct star_table *t, uint8_t *groups, uint8_t *rings);
struct star_answer faulty_table_paths(const struct star_table *t, uint32_t from, uint64_t *matrix);
struct star_imported faulty_table_read(struct star_table *t, const char *text, size_t len);
size_t faulty_table_write(const struct star_table *t, char *text, size_t size);

#endif
