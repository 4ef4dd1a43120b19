/* Random calls of every door that the header declares. */
#include "calls.h"

#include <stdlib.h>
#include <string.h>

#include "shared.h"
#include "sheet.h"
#include "star.h"
#include "table.h"

enum { TEXT_ROOM = 140000, FILL = 0xA5 };

int call_parameter(const struct door *door, const char *name) {
    unsigned k;
    for (k = 0; k < door->count; k++)
        if (strcmp(door->p[k].name, name) == 0) return (int)k;
    return -1;
}

/* What is lent to star_write_table. */
static struct sheet sheet;

static int is(const char *name, const char *other) { return strcmp(name, other) == 0; }

/* The refusal that a call is damaged for; 0 for most of them. */
static unsigned call_aim(const struct door *door) {
    size_t count = strlen((const char *)door->refusals);
    return any(5) < 2 ? door->refusals[any((uint32_t)count)] : 0;
}

/* A row that is not in use, where there is one. */
static int64_t call_struck(const struct table *t) {
    uint32_t row = 1 + any(TABLE_ROWS), k;
    for (k = 0; k < TABLE_ROWS && star_in_use(t->in_use, row); k++) row = row % TABLE_ROWS + 1;
    return row;
}

static int64_t call_row(const struct door *door, const struct table *t, unsigned aim) {
    if (is(door->name, "star_restore")) {
        if (aim != STAR_NOT_STRUCK) return call_struck(t);
        if (any(2)) return any(2) * (TABLE_ROWS + 1);
    }
    if (t->m == 0 || aim == STAR_BAD_SOURCE || aim == STAR_NOT_IN_USE) return any(TABLE_ROWS + 2);
    return (int64_t)t->at[any((uint32_t)t->m)] + 1;
}

/* The rows at a junction: how many of them a network may have. */
static uint32_t call_degree(const struct table *t, uint32_t junction) {
    uint32_t count = 0;
    size_t k;
    for (k = 0; k < t->m; k++)
        count += t->left[t->at[k]] == junction || t->right[t->at[k]] == junction;
    return count;
}

static int64_t call_number(const struct call *c, const struct table *t, const char *name,
                           unsigned aim) {
    if (is(name, "n")) return t->n;
    if (is(name, "separator")) return sheet.separator;
    if (is(name, "row")) return call_row(c->door, t, aim);
    if (is(name, "price")) return any(2) ? limit_price() : (int32_t)any(20);
    if (is(name, "a") || is(name, "b")) return any(256);
    if (is(name, "t")) {
        uint32_t r = (uint32_t)c->v[call_parameter(c->door, "r")].number;
        return aim == STAR_NO_OUTLETS ? any(2) * 300 : 1 + any(call_degree(t, r));
    }
    /* A junction asked about. */
    if (aim == STAR_BAD_SOURCE) return any(2) ? 0 : t->n + 1 + any(300);
    return t->n > 255 ? 1 : 1 + any(t->n);
}

/* Room for the next argument's bytes, with guard bytes around it, at a multiple of 16. */
static uint8_t *call_room(struct call *c, size_t length) {
    size_t from = c->end + GUARD, to = (from + length + GUARD + 15) & ~(size_t)15;
    if (to > ARENA) abort();
    memset(c->memory + c->end, FILL, to - c->end);
    c->end = to - GUARD;
    return c->memory + from;
}

static void call_lend(struct call *c, unsigned k, const void *from, size_t length) {
    c->v[k].bytes = call_room(c, length);
    c->v[k].length = length;
    if (from && length) memcpy(c->v[k].bytes, from, length);
    else random_bytes(c->v[k].bytes, length);
}

/* A claim over the table: its marks, or some of them moved, or any, where a door takes any. */
static void call_claim(struct call *c, unsigned k, const struct table *t) {
    int free = strstr(c->door->name, "mend") || strstr(c->door->name, "groups");
    uint8_t *mark;
    size_t i;
    call_lend(c, k, t->mark, t->rows);
    mark = c->v[k].bytes;
    if (t->m == 0 || any(3)) return;
    if (free && any(2))
        for (i = 0; i < t->m; i++) mark[t->at[i]] = (uint8_t)any(2);
    else {
        uint8_t *a = &mark[t->at[any((uint32_t)t->m)]], *b = &mark[t->at[any((uint32_t)t->m)]];
        uint8_t kept = *a;
        *a = *b;
        *b = kept;
    }
}

static int rising(const void *a, const void *b) {
    uint32_t x = *(const uint32_t *)a, y = *(const uint32_t *)b;
    return (x > y) - (x < y);
}

/* At most eight ends of runs, the last of which is that of the rows. */
static void call_ends(struct call *c, unsigned k, const struct table *t, unsigned aim) {
    uint32_t ends[12], last = (uint32_t)t->rows, count = 0, i, kept = 0;
    uint32_t wanted = last ? 1 + any(8) : 0;
    for (; count + 1 < wanted; count++) ends[count] = 1 + any(last);
    if (wanted) ends[count++] = last;
    qsort(ends, count, sizeof ends[0], rising);
    for (i = 0; i < count; i++)
        if (i == 0 || ends[i] != ends[kept - 1]) ends[kept++] = ends[i];
    if (aim == STAR_BAD_RUNS) {
        for (; any(3) == 0 && kept < 12; kept++) ends[kept] = last;
        if (kept) ends[any(kept)] = any(2) ? any(last + 9) : 0;
        if (any(4) == 0) kept = 0;
        for (; any(4) == 0 && kept < 12; kept++) ends[kept] = last + kept;
    }
    call_lend(c, k, ends, 4 * (size_t)kept);
}

static void call_numbers(struct call *c, unsigned k) {
    uint32_t numbers[TABLE_ROWS];
    size_t i;
    int few = any(2) == 0;
    for (i = 0; i < TABLE_ROWS; i++) numbers[i] = few ? any(3) * (uint32_t)i : any(TABLE_ROWS + 9);
    if (any(4) == 0) random_bytes(numbers, 64);
    call_lend(c, k, numbers, sizeof numbers);
}

static void call_text(struct call *c, unsigned k, const struct table *t, unsigned aim) {
    static uint8_t text[TEXT_ROOM];
    size_t length;
    memset(text, '\n', sizeof text);
    length = is(c->door->name, "star_read_table") ? table_file(t, aim, text, sizeof text)
                                                  : table_text(t, aim, text, sizeof text);
    call_lend(c, k, text, length);
}

/* What is written and not read: any bytes, of the length that the header asks for or more. */
static size_t call_output(const struct call *c, const struct table *t, const char *name,
                          unsigned size, unsigned aim) {
    size_t more = any(8) == 0 ? any(40) : 0;
    size_t rows = t->working ? TABLE_ROWS : t->m;
    if (is(name, "answer"))
        return strstr(c->door->name, "quote") || strstr(c->door->name, "best") ? 24 : 16;
    if (is(name, "matrix")) {
        size_t words = 16 * (t->n > 255 ? 255 : (size_t)t->n);
        return 8 * (aim == STAR_SHORT_MATRIX && words ? any((uint32_t)words) : words + more);
    }
    if (is(name, "records"))
        return 12 * (aim == STAR_SHORT_RECORDS && rows ? any(2 * (uint32_t)rows) : 2 * rows + more);
    if (is(name, "text")) return STAR_MAX_LIST + more;
    if (is(name, "groups")) return t->n > 255 ? 255 : (size_t)t->n;
    if (is(name, "name_from") || is(name, "name_to")) return 4 * STAR_MAX_NAMES;
    if (is(name, "row_at")) return 4 * TABLE_ROWS;
    return size * t->rows;
}

static void call_bytes(struct call *c, unsigned k, const struct table *t, unsigned aim) {
    const char *name = c->door->p[k].name;
    unsigned size = c->door->p[k].size, is_const = c->door->p[k].is_const;
    int reads_text = is(c->door->name, "star_import");
    size_t length;
    if (is(name, "in_use")) call_lend(c, k, t->in_use, sizeof t->in_use);
    else if (is(c->door->name, "star_write_table") && !is(name, "answer")) {
        const void *lent = sheet_lent(&sheet, name, &length);
        call_lend(c, k, lent, length);
    } else if (reads_text && is(name, "weight")) call_lend(c, k, NULL, 4 * TABLE_ROWS);
    else if (reads_text && strstr("left right", name)) call_lend(c, k, NULL, TABLE_ROWS);
    else if (is(name, "left")) call_lend(c, k, t->left, t->rows);
    else if (is(name, "right")) call_lend(c, k, t->right, t->rows);
    else if (is(name, "weight")) call_lend(c, k, t->weight, 4 * t->rows);
    else if (is(name, "mark") || is(name, "first") || is(name, "second")) call_claim(c, k, t);
    else if (is(name, "ends")) call_ends(c, k, t, aim);
    else if (is(name, "stp") || (is(name, "text") && is_const)) call_text(c, k, t, aim);
    else if (is(name, "numbers")) call_numbers(c, k);
    else call_lend(c, k, NULL, call_output(c, t, name, size, aim));
}

/* One argument with another length, within what its room has; the rest of it becomes guard. */
static void call_shorten(struct call *c, int answer) {
    unsigned k = answer ? c->door->count - 1 : any(c->door->count);
    struct value *v = &c->v[k];
    size_t size = c->door->p[k].size, taken;
    if (size == 0 || v->length < size) return;
    if (!answer && is(c->door->p[k].name, "answer")) return;
    taken = size * (any(3) ? 1 : 1 + any((uint32_t)(v->length / size)));
    v->length -= taken;
    memset(v->bytes + v->length, FILL, taken);
}

void call_make(struct call *c, const struct door *door) {
    static struct table t;
    unsigned aim = call_aim(door), k;
    c->door = door;
    c->end = 0;
    /* Marks are carried over 1,024 rows. */
    table_make(&t, call_parameter(door, "in_use") >= 0 || is(door->name, "star_carry"));
    table_damage(&t, aim);
    if (is(door->name, "star_write_table")) sheet_make(&sheet, &t, aim);
    for (k = 0; k < door->count; k++) {
        c->v[k].number = 0;
        c->v[k].bytes = NULL;
        if (door->p[k].size == 0) c->v[k].number = call_number(c, &t, door->p[k].name, aim);
        else call_bytes(c, k, &t, aim);
    }
    if (aim == STAR_BAD_LENGTHS) call_shorten(c, 0);
    if (any(50) == 0) call_shorten(c, 1);
    c->n = t.n;
    c->rows = t.m;
    for (c->last = 0, k = 0; k < t.m; k++)
        if (t.at[k] >= c->last) c->last = t.at[k] + 1;
}

void call_copy(struct call *to, const struct call *from) {
    uint8_t *memory = to->memory;
    unsigned k;
    *to = *from;
    to->memory = memory;
    memcpy(memory, from->memory, from->end + GUARD);
    for (k = 0; k < from->door->count; k++)
        if (from->door->p[k].size) to->v[k].bytes = memory + (from->v[k].bytes - from->memory);
}

int call_guarded(const struct call *c) {
    const uint8_t *at = c->memory, *end = c->memory + c->end + GUARD;
    unsigned k;
    for (k = 0; k < c->door->count; k++) {
        if (c->door->p[k].size == 0) continue;
        for (; at < c->v[k].bytes; at++)
            if (*at != FILL) return 0;
        at += c->v[k].length;
    }
    for (; at < end; at++)
        if (*at != FILL) return 0;
    return 1;
}
