/* What calls came to, for each door. */
#include "counts.h"

#include <stdio.h>
#include <string.h>

#include "star.h"

enum { MOST_DOORS = 64, MOST_NUMBER = 32 };
enum {
    NOT_TAKEN,
    DONE,
    ONLY,
    ANOTHER,
    LIGHTER,
    NEVER,
    FIRST,
    SECOND,
    DROPPED,
    ADDED,
    EXCHANGED,
    KEPT,
    PACKED,
    ONE_WORD,
    FOUR_WORDS,
    SIXTEEN_WORDS,
    LARGEST,
    KINDS
};

/* The kinds, and the doors that have them: a part of the name, or of every name. */
static const struct {
    const char *words, *of, * or ;
} kinds[KINDS] = {
    {"not taken", "star_", NULL}, {"done", "star_", NULL},     {"only", "cst", "other"},
    {"another", "cst", "other"},  {"lighter", "cst", "other"}, {"never", "breaking", NULL},
    {"first", "which", NULL},     {"second", "which", NULL},   {"dropped", "mend", NULL},
    {"added", "mend", NULL},      {"exchanged", "mend", NULL}, {"kept", "star_add", NULL},
    {"packed", "star_add", NULL}, {"1 word", "star_", NULL},   {"4 words", "star_", NULL},
    {"16 words", "star_", NULL},  {"largest", "star_", NULL},
};

static unsigned long of_kind[MOST_DOORS][KINDS], of_number[MOST_DOORS][MOST_NUMBER];

static const uint8_t *lent(const struct call *c, const char *name) {
    int k = call_parameter(c->door, name);
    return k < 0 ? NULL : c->v[k].bytes;
}

static void add_width(unsigned long *counts, const struct call *c) {
    int changes = call_parameter(c->door, "n") < 0 && lent(c, "in_use");
    if (c->last <= 64) counts[ONE_WORD]++;
    else if (c->last <= 256) counts[FOUR_WORDS]++;
    else counts[SIXTEEN_WORDS]++;
    if (changes ? c->rows >= STAR_MAX_ROWS - 1 : c->rows == STAR_MAX_ROWS && c->n == 255)
        counts[LARGEST]++;
}

static void add_steps(unsigned long *counts, const uint8_t *records, int64_t count) {
    int seen[4] = {0, 0, 0, 0}, k;
    int64_t i;
    for (i = 0; i < count; i++) seen[records[12 * i] & 3] = 1;
    for (k = 1; k < 4; k++) counts[DROPPED + k - 1] += seen[k] != 0;
}

static void add_done(unsigned long *counts, const struct call *before, const struct call *after,
                     uint32_t result) {
    const char *name = after->door->name;
    struct star_answer a = star_read_answer(lent(after, "answer"));
    counts[DONE]++;
    if (strcmp(name, "star_carry") != 0) add_width(counts, before);
    if (strstr(name, "cst") || strstr(name, "other")) {
        counts[ONLY] += a.kind == STAR_PASSED && a.only;
        counts[ANOTHER] += a.kind == STAR_PASSED && !a.only;
        counts[LIGHTER] += a.kind == STAR_LIGHTER;
    }
    if (strstr(name, "best")) counts[LIGHTER] += a.kind == STAR_LIGHTER;
    if (strstr(name, "breaking")) counts[NEVER] += a.kind == STAR_NEVER;
    if (strstr(name, "which")) counts[result == 1 ? FIRST : SECOND]++;
    if (strstr(name, "mend")) add_steps(counts, lent(after, "records"), a.amount);
    if (strcmp(name, "star_add") == 0) counts[before->last == STAR_MAX_ROWS ? PACKED : KEPT]++;
}

void counts_add(const struct call *before, const struct call *after, uint32_t result) {
    size_t door = (size_t)(after->door - doors);
    const struct value *answer = &after->v[after->door->count - 1];
    int longer = strstr(after->door->name, "quote") || strstr(after->door->name, "best");
    size_t length = longer ? 24 : 16;
    int text = call_parameter(after->door, "text");
    int list = text >= 0 && !after->door->p[text].is_const;
    if (answer->length != length || (list && after->v[text].length < STAR_MAX_LIST))
        of_kind[door][NOT_TAKEN]++;
    else if (answer->bytes[0] == STAR_REFUSED) of_number[door][answer->bytes[1] % MOST_NUMBER]++;
    else add_done(of_kind[door], before, after, result);
}

static int has_kind(const char *name, unsigned kind) {
    /* star_carry has no rows. */
    if (kind >= ONE_WORD && strcmp(name, "star_carry") == 0) return 0;
    if (kind == LIGHTER && strstr(name, "best")) return 1;
    return strstr(name, kinds[kind].of) || (kinds[kind].or &&strstr(name, kinds[kind].or));
}

static int has_number(const struct door *door, unsigned number) {
    return number && strchr((const char *)door->refusals, (int)number) != NULL;
}

/* Prints an entry; gives 1 where it should be there and is not, or is there and should not. */
static unsigned entry(const char *words, unsigned long count, int expected) {
    if (expected || count) printf(" %s %lu,", words, count);
    if ((count != 0) == (expected != 0)) return 0;
    printf(expected ? " (missing)" : " (not of the header)");
    return 1;
}

unsigned counts_print(void) {
    unsigned door, k, wrong = 0;
    for (door = 0; door < doors_count; door++) {
        printf("%s:", doors[door].name);
        for (k = 0; k < KINDS; k++)
            wrong += entry(kinds[k].words, of_kind[door][k], has_kind(doors[door].name, k));
        printf(" refused");
        for (k = 0; k < MOST_NUMBER; k++) {
            char number[16];
            sprintf(number, "%u:", k);
            wrong += entry(number, of_number[door][k], has_number(&doors[door], k));
        }
        printf("\n");
    }
    return wrong;
}
