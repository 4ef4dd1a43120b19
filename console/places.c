/* Places the junctions. For each two of them the fewest trenches between them are the distance
   wanted; pair after pair is moved towards it, by steps that shrink (stress minimised by stochastic
   gradient descent: Zheng, Pawar and Goodman, 2019). Of several tries, each from a start of its
   own, the one with the fewest crossings stays. All starts are fixed, so that the same network is
   always drawn alike. */
#include "places.h"

enum { SIZE = PLACES_JUNCTIONS + 1, SMALL = 60, TRIES_SMALL = 12, TRIES = 4 };

/* Rounds of a try: one more than two to this power, so that the shrinking factor of a step is found
   by as many square roots. */
enum { POWER_SMALL = 6, POWER = 5 };

static const double LAST_STEP = 0.1;

static struct beside beside;
static uint8_t apart[SIZE][SIZE]; /* the distance wanted between two junctions */

struct pair {
    uint8_t u, v;
};

static struct pair pairs[SIZE * SIZE / 2];

double places_root(double x) { return __builtin_sqrt(x); }

double places_distance(struct point a, struct point b) {
    double dx = a.x - b.x, dy = a.y - b.y;
    return places_root(dx * dx + dy * dy);
}

int places_sound(const struct ends *e, uint32_t i) {
    uint32_t a = e->left[i], b = e->right[i];
    return a >= 1 && a <= e->n && b >= 1 && b <= e->n && a != b;
}

static void list_beside(const struct ends *e) {
    uint16_t *first = beside.first;
    uint32_t v, i;
    for (v = 0; v <= SIZE; v++) first[v] = 0;
    for (i = 0; i < e->m; i++)
        if (places_sound(e, i)) {
            first[e->left[i]]++;
            first[e->right[i]]++;
        }
    for (v = 1; v <= SIZE; v++) first[v] = (uint16_t)(first[v] + first[v - 1]);
    for (i = e->m; i-- > 0;) {
        if (!places_sound(e, i)) continue;
        beside.list[--first[e->left[i]]] = e->right[i];
        beside.list[--first[e->right[i]]] = e->left[i];
    }
}

/* The fewest trenches from a junction to each other one, 0 where none lead there; gives the most of
   them. */
static uint8_t count_from(uint32_t n, uint32_t s) {
    uint8_t found[SIZE];
    uint32_t have = 1, next, k;
    for (k = 0; k <= n; k++) apart[s][k] = 0;
    found[0] = (uint8_t)s;
    for (next = 0; next < have; next++) {
        uint32_t u = found[next];
        for (k = beside.first[u]; k < beside.first[u + 1]; k++) {
            uint32_t v = beside.list[k];
            if (v == s || apart[s][v]) continue;
            apart[s][v] = (uint8_t)(apart[s][u] + 1);
            found[have++] = (uint8_t)v;
        }
    }
    return apart[s][found[have - 1]];
}

/* The distances wanted; junctions that no trenches join are kept about as far apart as others are.
   Gives the largest. */
static uint8_t distances(uint32_t n) {
    uint8_t largest = 1, other;
    uint32_t u, v;
    for (u = 1; u <= n; u++) {
        uint8_t most = count_from(n, u);
        if (most > largest) largest = most;
    }
    other = (uint8_t)(largest < 3 ? 2 : (3 * largest + 3) / 4);
    for (u = 1; u <= n; u++)
        for (v = 1; v <= n; v++)
            if (apart[u][v] == 0) apart[u][v] = other;
    return largest;
}

static uint32_t list_pairs(uint32_t n) {
    uint32_t u, v, count = 0;
    for (u = 1; u <= n; u++)
        for (v = u + 1; v <= n; v++) {
            pairs[count].u = (uint8_t)u;
            pairs[count++].v = (uint8_t)v;
        }
    return count;
}

/* A number below `below`. */
static uint32_t draw(uint32_t *random, uint32_t below) {
    *random = *random * 1664525u + 1013904223u;
    return (uint32_t)(((uint64_t)*random * below) >> 32);
}

static void shuffle(uint32_t count, uint32_t *random) {
    uint32_t i;
    for (i = count; i > 1; i--) {
        uint32_t k = draw(random, i);
        struct pair other = pairs[i - 1];
        pairs[i - 1] = pairs[k];
        pairs[k] = other;
    }
}

static void move(struct point *a, struct point *b, double wanted, double step) {
    double dx = a->x - b->x, dy = a->y - b->y, d = places_root(dx * dx + dy * dy);
    double share = step / (wanted * wanted), by;
    if (d < 1e-9) return;
    by = (share > 1 ? 1 : share) * (d - wanted) / 2 / d;
    a->x -= by * dx;
    a->y -= by * dy;
    b->x += by * dx;
    b->y += by * dy;
}

static void descend(struct point *at, uint32_t n, double largest, uint32_t seed, int power) {
    double step = largest * largest, shrink = LAST_STEP / step;
    uint32_t count = list_pairs(n), random = seed, v, i;
    int round;
    for (v = 1; v <= n; v++) {
        at[v].x = largest * draw(&random, 1 << 20) / (1 << 20);
        at[v].y = largest * draw(&random, 1 << 20) / (1 << 20);
    }
    for (round = 0; round < power; round++) shrink = places_root(shrink);
    for (round = 0; round <= 1 << power; round++, step *= shrink) {
        shuffle(count, &random);
        for (i = 0; i < count; i++) {
            uint32_t u = pairs[i].u, w = pairs[i].v;
            move(&at[u], &at[w], apart[u][w], step);
        }
    }
}

/* Whether c is to the left of the line from a to b. */
static int beyond(struct point a, struct point b, struct point c) {
    return (b.x - a.x) * (c.y - a.y) - (b.y - a.y) * (c.x - a.x) > 0;
}

static uint32_t crossings(const struct ends *e, const struct point *at) {
    uint32_t i, j, found = 0;
    for (i = 0; i < e->m; i++) {
        struct point a = at[e->left[i]], b = at[e->right[i]];
        if (!places_sound(e, i)) continue;
        for (j = i + 1; j < e->m; j++) {
            uint32_t u = e->left[j], v = e->right[j];
            if (u == e->left[i] || u == e->right[i] || v == e->left[i] || v == e->right[i])
                continue;
            if (beyond(a, b, at[u]) == beyond(a, b, at[v]) || !places_sound(e, j)) continue;
            found += beyond(at[u], at[v], a) != beyond(at[u], at[v], b);
        }
    }
    return found;
}

/* Turns the places so that they lie along the sheet, with junction 1 on the left and above the
   middle. */
static void turn(struct point *at, uint32_t n) {
    double mx = 0, my = 0, xx = 0, xy = 0, yy = 0, d, h, c = 1, s = 0;
    uint32_t v;
    for (v = 1; v <= n; v++) {
        mx += at[v].x / n;
        my += at[v].y / n;
    }
    for (v = 1; v <= n; v++) {
        at[v].x -= mx;
        at[v].y -= my;
        xx += at[v].x * at[v].x;
        xy += at[v].x * at[v].y;
        yy += at[v].y * at[v].y;
    }
    d = xx - yy;
    h = places_root(d * d + 4 * xy * xy);
    if (h > 1e-9) {
        c = places_root((1 + d / h) / 2);
        s = places_root((1 - d / h) / 2);
        if (xy < 0) s = -s;
    }
    for (v = n; v >= 1; v--) {
        double x = c * at[v].x + s * at[v].y, y = c * at[v].y - s * at[v].x;
        at[v].x = x;
        at[v].y = y;
    }
    c = at[1].x > 0 ? -1 : 1;
    s = at[1].y > 0 ? -1 : 1;
    for (v = 1; v <= n; v++) {
        at[v].x *= c;
        at[v].y *= s;
    }
}

static void stress(const struct ends *e, struct point *at) {
    static struct point tried[SIZE];
    uint32_t fewest = 0, v, k, tries = e->n <= SMALL ? TRIES_SMALL : TRIES;
    double largest = distances(e->n);
    for (k = 1; k <= tries && (k == 1 || fewest > 0); k++) {
        uint32_t found;
        descend(tried, e->n, largest, 7919 * k, e->n <= SMALL ? POWER_SMALL : POWER);
        found = crossings(e, tried);
        if (k > 1 && found >= fewest) continue;
        fewest = found;
        for (v = 1; v <= e->n; v++) at[v] = tried[v];
    }
    turn(at, e->n);
}

void places_of(uint32_t n, uint32_t m, const uint8_t *left, const uint8_t *right,
               struct point *at) {
    struct ends e = {0, 0, NULL, NULL};
    e.n = n;
    e.m = m;
    e.left = left;
    e.right = right;
    list_beside(&e);
    if (!places_shape(&e, &beside, at)) stress(&e, at);
}
