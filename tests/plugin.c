/* A plugin that has the static library inside: it builds the yard. */
#include "star.h"

int64_t plugin_total(void);

int64_t plugin_total(void) {
    static const uint8_t a[] = {1, 2, 3, 1, 1}, b[] = {2, 3, 4, 4, 3}, price[] = {5, 3, 5, 4, 6};
    struct star_table t;
    int i;
    star_table_init(&t, 4);
    for (i = 0; i < 5; i++) star_table_add(&t, a[i], b[i], price[i]);
    return star_table_build(&t).total;
}
