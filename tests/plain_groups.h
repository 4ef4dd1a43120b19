/* A plain implementation of groups and rings, by other algorithms than the machine's: union-find
   for the groups, and a search with its lowest returns for the rows that close no ring. */
#ifndef TESTS_PLAIN_GROUPS_H
#define TESTS_PLAIN_GROUPS_H

#include "rows.h"

/* The smallest junction of each one's group, of 1 to n at the index from 0 on, by the rows whose
   byte in marked, one for each index of r, is 1; gives the number of groups. */
unsigned plain_groups(uint32_t n, const struct rows *r, const uint8_t *marked, uint8_t *groups);

/* 1 at the index of each marked row that closes a ring, and 0 at the others; gives their number. */
unsigned plain_rings(uint32_t n, const struct rows *r, const uint8_t *marked, uint8_t *rings);

#endif
