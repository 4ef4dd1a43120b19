/* Random tables for the calls of star_write_table. */
#include "sheet.h"

#include <stdio.h>
#include <string.h>

#include "shared.h"
#include "star.h"

/* The rows up to the last one in use; one too many for 2. */
static void sheet_rows(struct sheet *s, const struct table *t, unsigned number) {
    size_t k;
    s->m = 0;
    for (k = 0; k < t->m; k++)
        if (t->at[k] >= s->m) s->m = t->at[k] + 1;
    memcpy(s->left, t->left, sizeof s->left);
    memcpy(s->right, t->right, sizeof s->right);
    memcpy(s->mark, t->mark, sizeof s->mark);
    memcpy(s->weight, t->weight, sizeof s->weight);
    if (number == STAR_TOO_MANY_ROWS) s->m = TABLE_ROWS + 1 + any(8);
    for (k = 0; k < s->m; k++)
        if (k >= TABLE_ROWS || !star_in_use(t->in_use, (uint32_t)k + 1)) {
            s->left[k] = (uint8_t)(1 + any(t->n > 255 ? 255 : t->n));
            s->right[k] = (uint8_t)(1 + any(t->n > 255 ? 255 : t->n));
        }
    if (number == STAR_BAD_END && s->m) s->left[any((uint32_t)s->m)] = 0;
}

/* A name of the text; a blank in it parts fields where blanks do. */
static void sheet_name(struct sheet *s, const char *name) {
    s->from[s->names] = (uint32_t)s->length;
    s->length += (size_t)sprintf((char *)s->text + s->length, "%s", name);
    s->to[s->names++] = (uint32_t)s->length;
    s->text[s->length++] = ';';
}

static void sheet_names(struct sheet *s, const struct table *t, unsigned number) {
    size_t count = number == STAR_TOO_MANY_NAMES ? 256 : t->n > 255 ? 255 : t->n;
    size_t k, odd = any((uint32_t)count);
    char name[32];
    if (number == STAR_NOT_TRENCH && t->m) odd = s->left[t->at[0]] - 1u;
    for (k = 0; k < count; k++) {
        sprintf(name, s->separator == ' ' ? "Junction%u" : "Junction %u", (unsigned)k + 1);
        if (k == odd && number == STAR_NOT_JUNCTION) strcpy(name, any(2) ? "12" : "a#b");
        if (k == odd && number == STAR_NOT_TRENCH) strcpy(name, any(2) ? "Struck" : "junctions");
        sheet_name(s, name);
    }
    if (number == STAR_BAD_NAME_PLACES) s->to[odd] = any(2) ? s->from[odd] - 1u : SHEET_TEXT;
}

void sheet_make(struct sheet *s, const struct table *t, unsigned number) {
    int named = number == STAR_TOO_MANY_NAMES || number == STAR_NOT_JUNCTION ||
                number == STAR_NOT_TRENCH || number == STAR_BAD_NAME_PLACES;
    s->separator = (uint8_t) " ;,\t"[any(4)];
    s->names = s->length = 0;
    sheet_rows(s, t, number);
    if (named || any(2)) sheet_names(s, t, number);
    if (number == STAR_BAD_SEPARATOR) s->separator = (uint8_t) "|.:\n"[any(4)];
    s->room = STAR_FILE_ROOM(s->names ? 13 : 3) + any(40);
    if (number == STAR_SHORT_TEXT) s->room = any(STAR_FILE_ROOM(3));
}

const void *sheet_lent(const struct sheet *s, const char *name, size_t *length) {
    static const char *const names[] = {"left", "right",     "mark",   "weight",
                                        "text", "name_from", "name_to"};
    const void *const lent[] = {s->left, s->right, s->mark, s->weight, s->text, s->from, s->to};
    const size_t lengths[] = {s->m, s->m, s->m, 4 * s->m, s->length, 4 * s->names, 4 * s->names};
    size_t k;
    *length = s->room;
    for (k = 0; k < sizeof lengths / sizeof lengths[0]; k++)
        if (strcmp(name, names[k]) == 0) {
            *length = lengths[k];
            return lent[k];
        }
    return NULL;
}
