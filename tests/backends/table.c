/* Random tables for the calls of the doors. */
#include "table.h"

#include <stdio.h>
#include <string.h>

#include "shared.h"
#include "star.h"

enum { PRICES_CHEAP_TREE, PRICES_EQUAL, PRICES_FEW, PRICES_LIMITS, PRICES_ANY, PRICES_KINDS };

/* Junctions and rows: mostly few, at times of each width, at times the largest table. */
static void table_size(struct table *t) {
    uint32_t kind = any(100);
    t->n = 1 + any(12);
    t->m = t->n - 1 + any(20);
    if (kind < 8) t->n = 255;
    else if (kind < 14) t->n = 2 + any(254);
    else if (kind < 20) t->n = 12 + any(50);
    if (kind < 4) t->m = TABLE_ROWS - any(2);
    else if (kind < 8) t->m = 257 + any(TABLE_ROWS - 256);
    else if (kind < 14) t->m = any(65) + (any(2) ? t->n - 1 : 0);
    else if (kind < 20) t->m = 65 + any(192);
    if (t->n < 46 && t->m > t->n * (t->n - 1) / 2) t->m = t->n * (t->n - 1) / 2;
}

/* Where the rows in use stand: at the top, or at places up to a last one. */
static void table_places(struct table *t) {
    size_t last = t->m, k = 0, place;
    if (t->working && any(4)) {
        static const size_t lasts[] = {64, 256, TABLE_ROWS};
        size_t chosen = lasts[any(3)];
        if (chosen > last) last = chosen;
    }
    for (place = 0; place < last && k < t->m; place++)
        if (any((uint32_t)(last - place)) < t->m - k) t->at[k++] = place;
    if (k && any(2)) t->at[k - 1] = last - 1;
    t->rows = t->working ? TABLE_ROWS : t->m;
}

static int32_t table_price(unsigned style, int in_tree) {
    if (style == PRICES_CHEAP_TREE) return (int32_t)any(100) - (in_tree ? 200 : 0);
    if (style == PRICES_EQUAL) return 7;
    if (style == PRICES_FEW) return (int32_t)any(4);
    if (style == PRICES_LIMITS) return limit_price();
    return (int32_t)(uint32_t)bits();
}

static void table_row(struct table *t, size_t k, struct pair p, int32_t price, int mark) {
    put_row(t->left, t->right, t->weight, t->at[k] + 1, p.a, p.b, price);
    t->mark[t->at[k]] = (uint8_t)mark;
    star_set_in_use(t->in_use, t->at[k] + 1, 1);
}

static void exchange(size_t *a, size_t *b) {
    size_t kept = *a;
    *a = *b;
    *b = kept;
}

/* A row's ends: in a tree's row a new junction and one that is joined, in a chain the last one. */
static struct pair table_pair(const struct table *t, size_t k, int in_tree, int chain) {
    struct pair p = any_pair(t->n, in_tree ? k + 1 : 0, 0, 1000);
    unsigned tries = 0;
    if (chain && in_tree) p.b = p.a - 1;
    while (chain && !in_tree && (p.a + 1 == p.b || p.b + 1 == p.a) && ++tries < 100)
        p = any_pair(t->n, 0, 0, 1000);
    return p;
}

void table_make(struct table *t, int working) {
    unsigned style = any(PRICES_KINDS);
    size_t k, tree;
    int chain = any(6) == 0;
    t->working = working;
    table_size(t);
    table_places(t);
    random_bytes(t->left, sizeof t->left);
    random_bytes(t->right, sizeof t->right);
    random_bytes(t->mark, sizeof t->mark);
    random_bytes(t->weight, sizeof t->weight);
    memset(t->in_use, 0, sizeof t->in_use);
    /* The tree's rows come first; their places are mixed with the others'. */
    for (k = t->m; k > 1; k--) exchange(&t->at[k - 1], &t->at[any((uint32_t)k)]);
    tree = t->m >= t->n - 1 ? t->n - 1 : 0;
    no_pair_given();
    for (k = 0; k < t->m; k++) {
        int in_tree = k < tree;
        table_row(t, k, table_pair(t, k, in_tree, chain), table_price(style, in_tree), in_tree);
    }
}

/* A network's marks with some of them moved to other rows. */
static void table_move_marks(struct table *t) {
    unsigned turns = 1 + any(3);
    while (turns--) {
        uint8_t *a = &t->mark[t->at[any((uint32_t)t->m)]];
        uint8_t *b = &t->mark[t->at[any((uint32_t)t->m)]];
        uint8_t kept = *a;
        *a = *b;
        *b = kept;
    }
}

static void table_repeat(struct table *t) {
    size_t a = t->at[any((uint32_t)t->m)], b = t->at[any((uint32_t)t->m)];
    int turned = any(2) == 0;
    t->left[a] = turned ? t->right[b] : t->left[b];
    t->right[a] = turned ? t->left[b] : t->right[b];
}

static void table_bad_end(struct table *t) {
    size_t a = t->at[any((uint32_t)t->m)];
    uint8_t *end = any(2) ? &t->left[a] : &t->right[a];
    if (any(3) == 0) t->left[a] = t->right[a];
    else if (any(2) || t->n == 255) *end = 0;
    else *end = (uint8_t)(t->n + 1 + any(255 - t->n));
}

/* More rows than a table may have; their bytes are any. */
static void table_too_many(struct table *t) {
    if (t->working) return;
    t->rows = TABLE_ROWS + 1 + any(8);
    for (t->m = 0; t->m < t->rows; t->m++) t->at[t->m] = t->m;
}

static void table_fill(struct table *t) {
    if (!t->working) return;
    memset(t->in_use, 255, sizeof t->in_use);
    for (t->m = 0; t->m < TABLE_ROWS; t->m++) t->at[t->m] = t->m;
}

void table_damage(struct table *t, unsigned number) {
    if (number == STAR_BAD_JUNCTION_COUNT) {
        static const uint32_t counts[] = {0, 256, 257, UINT32_MAX};
        t->n = counts[any(4)];
    }
    if (number == STAR_TOO_MANY_ROWS) table_too_many(t);
    if (number == STAR_NO_NETWORK && t->n < 255) t->n++;
    if (number == STAR_TABLE_FULL) table_fill(t);
    if (t->m == 0) return;
    if (number == STAR_BAD_END) table_bad_end(t);
    if (number == STAR_REPEATED_ROW) table_repeat(t);
    if (number == STAR_BAD_MARK) t->mark[t->at[any((uint32_t)t->m)]] = (uint8_t)(2 + any(254));
    if (number == STAR_BAD_MARK_COUNT) t->mark[t->at[any((uint32_t)t->m)]] ^= 1;
    if (number == STAR_NOT_JOINED) table_move_marks(t);
}

/* Sections of other names, which are skipped: as many as the room has. */
static size_t text_sections(uint8_t *text, size_t from, size_t to) {
    static const char section[] = "SECTION A\nEND\n";
    while (from + sizeof section < to) {
        memcpy(text + from, section, sizeof section - 1);
        from += sizeof section - 1;
    }
    return from;
}

size_t table_text(const struct table *t, unsigned number, uint8_t *text, size_t most) {
    size_t rows = t->m, told = rows, k, end;
    char *to = (char *)text;
    if (number == STAR_BAD_EDGE_COUNT) told += 1 + any(2);
    end = (size_t)sprintf(to, "33D32945 STP File, STP Format Version 1.0\n");
    if (any(40) == 0) end = text_sections(text, end, STAR_MAX_TEXT - 24 * rows - 100);
    end += (size_t)sprintf(to + end, "SECTION Graph\nNodes %u\nEdges %u\n", (unsigned)t->n,
                           (unsigned)told);
    for (k = 0; k < rows && end + 64 < most; k++) {
        size_t i = t->at[k];
        end += (size_t)sprintf(to + end, "E %u %u %ld\n", t->left[i], t->right[i],
                               (long)star_get_price(t->weight, i));
    }
    end += (size_t)sprintf(to + end, "END\nEOF\n");
    if (number != STAR_BAD_TEXT) return end;
    if (any(4) == 0) return any((uint32_t)end);
    if (any(8) == 0) return end + 70000 < most ? end + 70000 : most;
    text[any((uint32_t)end)] = (uint8_t)bits();
    return end;
}

/* A junction in a table file: a number, or a name where the file has names. */
static size_t file_end(char *to, int names, unsigned junction) {
    return (size_t)sprintf(to, names ? "Junction %u" : "%u", junction);
}

/* A line of a table file: one that cannot stand for a reason, or row i. */
static size_t file_line(const struct table *t, size_t i, int names, unsigned number, char *to) {
    size_t end = 0;
    if (!star_in_use(t->in_use, i + 1)) end = (size_t)sprintf(to, "struck;");
    if (number == STAR_NOT_TRENCH) return (size_t)sprintf(to, "1;2\n");
    if (number == STAR_NOT_COUNT) return (size_t)sprintf(to, "junctions;\n");
    if (number == STAR_NOT_JUNCTION) end += (size_t)sprintf(to + end, "256");
    else if (number == STAR_MIXED_NAMES) end += file_end(to + end, !names, 1);
    else end += file_end(to + end, names, t->left[i] ? t->left[i] : 1);
    to[end++] = ';';
    end += file_end(to + end, names, t->right[i] ? t->right[i] : 1);
    if (number == STAR_NOT_PRICE) end += (size_t)sprintf(to + end, ";1.000");
    else end += (size_t)sprintf(to + end, ";%ld", (long)star_get_price(t->weight, i));
    end += (size_t)sprintf(to + end, ";%u", number == STAR_NOT_MARK ? 50u : t->mark[i] & 1u);
    return end + (size_t)sprintf(to + end, any(9) ? "\n" : "\r\n");
}

size_t table_file(const struct table *t, unsigned number, uint8_t *text, size_t most) {
    size_t last = t->m ? t->at[t->m - 1] + 1 : 0, wrong, i, end = 0;
    int names = any(2) == 0;
    char *to = (char *)text;
    if (number == STAR_TOO_MANY_ROWS) last = TABLE_ROWS + 1;
    if (number == STAR_TOO_MANY_NAMES) last = TABLE_ROWS;
    wrong = any((uint32_t)last + 1);
    if (any(2)) end = (size_t)sprintf(to, "junctions %u\n", (unsigned)t->n);
    if (number == STAR_MIXED_NAMES && last) end += file_line(t, 0, names, 0, to + end);
    for (i = 0; i < last && end + 128 < most; i++) {
        size_t row = i % TABLE_ROWS;
        if (number == STAR_TOO_MANY_NAMES)
            end += (size_t)sprintf(to + end, "n%u,%s,5\n", (unsigned)i, "m");
        else end += file_line(t, row, names, i == wrong ? number : 0, to + end);
    }
    if (wrong == last && number >= STAR_NOT_TRENCH && number <= STAR_MIXED_NAMES)
        end += file_line(t, 0, names, number, to + end);
    return end;
}
