/* A planner's table file as star_read_table reads it, and what kind of file a text is: for the
   library's own files and for the console. */
#ifndef READING_H
#define READING_H

#include <string.h>

#include "star.h"

/* What was read. Where the answer is a refusal the columns are zeros. */
struct reading {
    struct star_file file; /* the answer */
    uint64_t in_use[STAR_COLUMN_WORDS];
    uint8_t left[STAR_MAX_ROWS], right[STAR_MAX_ROWS];
    uint8_t weight[4 * STAR_MAX_ROWS];
    uint8_t mark[STAR_MAX_ROWS];
    uint32_t name_from[STAR_MAX_NAMES], name_to[STAR_MAX_NAMES];
    uint32_t row_at[STAR_MAX_ROWS];
};

static inline void reading_of(struct reading *r, const char *text, size_t len) {
    uint8_t answer[STAR_ANSWER_BYTES];
    memset(r, 0, sizeof *r);
    star_read_table((const uint8_t *)text, len, r->in_use, STAR_COLUMN_WORDS, r->left,
                    STAR_MAX_ROWS, r->right, STAR_MAX_ROWS, r->weight, 4 * STAR_MAX_ROWS, r->mark,
                    STAR_MAX_ROWS, r->name_from, STAR_MAX_NAMES, r->name_to, STAR_MAX_NAMES,
                    r->row_at, STAR_MAX_ROWS, answer, sizeof answer);
    r->file = star_read_file(answer);
}

/* The bytes of a byte order mark that a text opens with. */
static inline size_t reading_order_mark(const char *text, size_t len) {
    return len >= 3 && memcmp(text, "\xef\xbb\xbf", 3) == 0 ? 3 : 0;
}

static inline int reading_parts(char c) { return c == ' ' || c == '\t' || c == '\n' || c == '\r'; }

/* Whether a text without a byte order mark is an STP text: its first word is 33D32945, in either
   case. */
static inline int reading_is_stp(const char *text, size_t len) {
    size_t k = 0;
    while (k < len && reading_parts(text[k])) k++;
    text += k;
    len -= k;
    if (len < 8 || (len > 8 && !reading_parts(text[8]))) return 0;
    return memcmp(text, "33D32945", 8) == 0 || memcmp(text, "33d32945", 8) == 0;
}

#endif
