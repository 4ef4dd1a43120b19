/* The ten tasks with the library, in C. usage: star TABLE */
#include "timed.h"

#include "star.h"

static struct star_table t;
static uint8_t plan[STAR_MAX_ROWS], other[STAR_MAX_ROWS];

/* set-up */
static void read_table(const char *text, size_t len) {
    star_table_read(&t, text, len);
    memcpy(plan, t.mark, sizeof plan);
}

/* task least */
static int64_t least(void) { return star_table_build(&t).total; }

/* task check */
static int64_t check(void) {
    memcpy(t.mark, plan, sizeof plan);
    return star_table_check(&t).kind == STAR_PASSED;
}

/* task only */
static int64_t only(void) {
    star_table_build(&t);
    return star_table_check(&t).only;
}

/* task exchange */
static int64_t exchange(void) {
    memcpy(t.mark, plan, sizeof plan);
    return star_table_best(&t).saving;
}

/* task quote */
static int64_t quote(void) { return star_table_quote(&t, 7, 9999).after; }

/* task breaking */
static int64_t breaking(void) { return star_table_breaking(&t, 7).amount; }

/* task path */
static int64_t path(void) {
    static uint64_t matrix[STAR_COLUMN_WORDS * STAR_MAX_JUNCTIONS];
    int64_t rows = 0;
    uint32_t row;
    memcpy(t.mark, plan, sizeof plan);
    star_table_paths(&t, 1, matrix);
    for (row = 1; row <= STAR_MAX_ROWS; row++) rows += star_on_path(matrix, 40, row);
    return rows;
}

/* task which */
static int64_t which(void) { return star_table_which(&t, plan, other).which; }

/* task mend */
static int64_t mend(void) {
    memcpy(t.mark, plan, sizeof plan);
    t.mark[0] ^= 1;
    return star_table_mend(&t, NULL).total;
}

/* task outlets */
static int64_t outlets(void) { return star_table_outlets(&t, 1, 4).total; }

/* end */
int main(int count, char **words) {
    size_t len = 0;
    char *text = count == 2 ? whole_file(words[1], &len) : NULL;
    if (!text) return 1;
    read_table(text, len);
    star_table_build(&t);
    memcpy(other, t.mark, sizeof other);
    TIMED(least);
    TIMED(check);
    TIMED(only);
    TIMED(exchange);
    TIMED(quote);
    TIMED(breaking);
    TIMED(path);
    TIMED(which);
    TIMED(mend);
    TIMED(outlets);
    free(text);
    return 0;
}
