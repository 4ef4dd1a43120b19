/* Rings and groups of junctions. The door star_groups gives the groups, and the marked trenches
   that are on a ring. To put each ring in order the doors are asked about one group at a time: its
   junctions and its marked trenches, all of one price. A cheapest network of these leaves out one
   trench of each ring, and the path between the ends of such a trench is the rest of its ring. */
#include "ring.h"

#include <string.h>

#include "detour.h"

enum { SHOWN = 20 };

/* The group at hand, 0 for none: its junctions and marked trenches, counted anew, and what junction
   and trench each of them is. */
static struct table own;
static struct paths paths;
static unsigned at, number[STAR_MAX_ROWS], junction[STAR_MAX_JUNCTIONS + 1];

static size_t next_marked(const struct table *t, size_t i) {
    do i = table_next(t, i);
    while (i <= t->m && t->mark[i - 1] != 1);
    return i;
}

/* Takes a group in hand, and has its network built; 0 if the door refuses. */
static int take(const struct ring *r, const struct table *t, unsigned group) {
    unsigned local[STAR_MAX_JUNCTIONS + 1] = {0}, v;
    size_t i;
    if (at == group) return 1;
    memset(&own, 0, sizeof own);
    paths.from = 0;
    for (v = 1; v <= t->n; v++)
        if (r->group[v] == group) {
            local[v] = ++own.n;
            junction[own.n] = v;
        }
    for (i = next_marked(t, 0); i <= t->m; i = next_marked(t, i))
        if (r->group[t->left[i - 1]] == group) {
            number[own.m] = (unsigned)i;
            own.left[own.m] = (uint8_t)local[t->left[i - 1]];
            own.right[own.m++] = (uint8_t)local[t->right[i - 1]];
        }
    at = table_mst1(&own).kind == STAR_PASSED ? group : 0;
    return at == group;
}

/* Puts the trenches that close rings in order: each group gives its own in order. */
static void sort(struct ring *r) {
    size_t i, k;
    for (i = 1; i < r->rings; i++) {
        unsigned row = r->closing[i];
        for (k = i; k > 0 && r->closing[k - 1] > row; k--) r->closing[k] = r->closing[k - 1];
        r->closing[k] = row;
    }
}

/* Numbers the groups by their smallest junctions, which the door gives, and notes the junctions
   outside the largest. */
static void group(struct ring *r, uint32_t n, const uint8_t *smallest) {
    size_t size[STAR_MAX_JUNCTIONS + 1] = {0}, largest = 1, k;
    unsigned v;
    for (v = 1; v <= n; v++) {
        r->group[v] = smallest[v - 1] == v ? (unsigned)++r->groups : r->group[smallest[v - 1]];
        size[r->group[v]]++;
    }
    for (k = 2; k <= r->groups; k++)
        if (size[k] > size[largest]) largest = k;
    for (v = 1; v <= n; v++)
        if (r->group[v] != largest) r->cut[r->cuts++] = v;
}

int ring_of(struct ring *r, const struct table *t) {
    static uint8_t smallest[STAR_MAX_JUNCTIONS], on[STAR_MAX_ROWS];
    uint8_t ringed[STAR_MAX_JUNCTIONS + 1] = {0};
    size_t i;
    unsigned k;
    memset(r, 0, sizeof *r);
    at = 0;
    if (table_groups(t, smallest, on).kind != STAR_PASSED) return 0;
    group(r, t->n, smallest);
    for (i = 1; i <= t->m; i++)
        if (on[i - 1]) ringed[r->group[t->left[i - 1]]] = 1;
    for (k = 1; k <= r->groups; k++) {
        if (!ringed[k]) continue;
        if (!take(r, t, k)) return 0;
        for (i = 0; i < own.m; i++)
            if (own.mark[i] == 0) r->closing[r->rings++] = number[i];
    }
    sort(r);
    return r->rings == 0 || ring_nth(r, t, 0);
}

int ring_nth(struct ring *r, const struct table *t, size_t k) {
    static struct detour d;
    unsigned last = r->closing[k];
    size_t i;
    r->count = 0;
    if (!take(r, t, r->group[t->left[last - 1]])) return 0;
    for (i = 0; number[i] != last;) i++;
    if (!way_between(&d, &paths, &own, own.left[i], own.right[i])) return 0;
    for (i = 0; i < d.count; i++) r->row[i] = number[d.row[i] - 1];
    for (i = 0; i <= d.count; i++) r->stop[i] = junction[d.stop[i]];
    r->row[d.count] = last;
    r->stop[d.count + 1] = r->stop[0];
    r->count = d.count + 1;
    return 1;
}

void ring_count(struct message *to, const struct table *t) {
    size_t marks = table_marks(t);
    say_count(to, marks, "trench is marked", "trenches are marked");
    say(to, ", and ");
    say_count(to, t->n, "junction needs", "junctions need");
    if (marks + 1 == t->n)
        say(to,
            " %zu: the count is right, and that is not enough. A ring beside a junction that "
            "stands apart counts just as well.",
            marks);
    else say(to, " exactly %zu: more close a ring, fewer leave a junction out.", (size_t)t->n - 1);
}

void ring_words(struct message *to, const struct ring *r, const struct table *t) {
    if (r->count == 0) return;
    say(to, "A ring: ");
    detour_rows(to, r->row, r->count);
    say(to, " (");
    detour_stops(to, t, r->stop, r->count + 1);
    say(to, ").");
}

void ring_advice(struct message *to, const struct ring *r) {
    if (r->rings == 1) say(to, "Any of its trenches can go, and its junctions stay joined.");
    if (r->rings > 1)
        say(to,
            "Any trench of a ring can go, and its junctions stay joined. Before no ring is left "
            "%zu marked trenches have to go.",
            r->rings);
}

void ring_group(struct message *to, const struct ring *r, const struct table *t, size_t group) {
    size_t count = 0;
    unsigned v, last;
    for (v = 1; v <= t->n; v++) count += r->group[v] == group;
    say(to, count == 1 ? "junction" : "junctions");
    for (v = 1, count = 0; v <= t->n; v++) {
        if (r->group[v] != group) continue;
        for (last = v; last < t->n && r->group[last + 1] == group;) last++;
        if (last < v + 3 || t->names > 0) last = v; /* a run of four or more is told by its ends */
        say(to, count++ > 0 ? ", " : " ");
        say_junction(to, t, v);
        if (last > v) say(to, " to %u", last);
        v = last;
    }
}

void ring_groups(struct message *to, const struct ring *r, const struct table *t) {
    size_t k;
    if (r->groups < 2) return;
    say(to, "Groups that stand apart: ");
    for (k = 1; k <= r->groups && k <= SHOWN; k++) {
        if (k > 1) say(to, "; ");
        ring_group(to, r, t, k);
    }
    if (k <= r->groups) say(to, "; and %zu more", r->groups - k + 1);
    say(to, ".");
}

static void line(FILE *to, struct message *words) {
    fprintf(to, "%s\n", words->text);
    words->len = 0;
}

/* A ring with all its trenches. */
static void ring_line(FILE *to, const struct ring *r, const struct table *t) {
    struct message stops = {{0}, 0};
    size_t k;
    fputs("A ring: trenches", to);
    for (k = 0; k < r->count; k++) fprintf(to, "%s %u", k > 0 ? "," : "", r->row[k]);
    detour_stops(&stops, t, r->stop, r->count + 1);
    fprintf(to, " (%s).\n", stops.text);
}

void ring_tell(FILE *to, const struct table *t, int all) {
    static struct ring r;
    struct message words = {{0}, 0};
    size_t k, rings, groups;
    if (!ring_of(&r, t)) return;
    rings = all || r.rings < SHOWN ? r.rings : SHOWN;
    groups = all || r.groups < SHOWN ? r.groups : SHOWN;
    for (k = 0; k < rings && ring_nth(&r, t, k); k++) ring_line(to, &r, t);
    if (rings < r.rings)
        fprintf(to, "%zu more rings: 'star explain --all' names each.\n", r.rings - rings);
    ring_advice(&words, &r);
    if (r.rings > 0) line(to, &words);
    if (r.groups < 2) return;
    fprintf(to, "The marked trenches leave the junctions apart, in %zu groups:\n", r.groups);
    for (k = 1; k <= groups; k++) {
        say(&words, "  ");
        ring_group(&words, &r, t, k);
        line(to, &words);
    }
    if (groups < r.groups)
        fprintf(to, "%zu more groups: 'star explain --all' names each.\n", r.groups - groups);
}

void ring_json(struct json *j, const struct table *t) {
    static struct ring r;
    size_t k;
    unsigned v;
    if (!ring_of(&r, t)) return;
    json_open(j, "rings", '[');
    for (k = 0; k < r.rings && ring_nth(&r, t, k); k++) {
        json_open(j, NULL, '{');
        json_numbers(j, "trenches", r.row, r.count);
        json_numbers(j, "junctions", r.stop, r.count + 1);
        json_close(j, '}');
    }
    json_close(j, ']');
    json_open(j, "groups", '[');
    for (k = 1; k <= r.groups; k++) {
        json_open(j, NULL, '[');
        for (v = 1; v <= t->n; v++)
            if (r.group[v] == k) json_number(j, NULL, v);
        json_close(j, ']');
    }
    json_close(j, ']');
}
