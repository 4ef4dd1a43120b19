/* The calls of the doors of plain tables and of those that work tables have, and of the plain
   implementation, for door_test and work_test. */
#ifndef TESTS_DOORS_H
#define TESTS_DOORS_H

#include "lent.h"

enum door { CST, OTHER, PATHS, MST1, STRIKE, RESTORE, ADD, MERGE, CARRY, TOTAL, DOORS };

/* The columns that a door is lent, a bit each, and those of all. */
extern const unsigned DOOR_LENDS[DOORS];
#define ALL_LEND (LENDS(MARK) | LENDS(NUMBERS))

/* Calls a door; what it answers. */
uint32_t doors_call(struct lent *t, enum door door);
struct star_answer doors_answer(struct lent *t, enum door door);

/* Compares a call of a door with the plain implementation; gives what was returned. */
uint32_t doors_agree(struct lent *t, enum door door);

/* Working tables whose answers are known, null pointers, and the stack that the header names. */
void work_cases(void);

#endif
