/* No faults: the doors as they are. */
#include "lent.h"

const int has_faults = 0;

void fault_before(struct lent *t) { (void)t; }

uint32_t fault_after(struct lent *t, struct lent *before, uint32_t said) {
    (void)t;
    (void)before;
    return said;
}
