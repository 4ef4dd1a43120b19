/* The lines of trenches: straight, or bent around a junction that stands in the way; and places by
   coordinates that are given. */
#include "places.h"

enum { POINTS = 16 };

/* How near a line may come to a junction: so much, or this part of the distance at which junctions
   stand where they stand close together. What a line is moved aside by, in these. */
static const double CLEAR = 0.17, CLOSE = 0.4;
static const double ASIDE[] = {0, 1.05, -1.05, 2.1, -2.1};

/* The point at a share of a line whose middle is moved aside. */
static struct point on_line(struct point a, struct point b, double bend, double share) {
    double d = places_distance(a, b), by = 4 * bend * share * (1 - share) / (d > 0 ? d : 1);
    struct point p;
    p.x = a.x + (b.x - a.x) * share - (b.y - a.y) * by;
    p.y = a.y + (b.y - a.y) * share + (b.x - a.x) * by;
    return p;
}

/* The distance to the nearest other junction, of which a tenth of the junctions have less. */
static double nearness(uint32_t n, const struct point *at) {
    double near[PLACES_JUNCTIONS];
    uint32_t u, v, k;
    for (u = 1; u <= n; u++) {
        double least = 1;
        for (v = 1; v <= n; v++)
            if (v != u && places_distance(at[u], at[v]) < least)
                least = places_distance(at[u], at[v]);
        for (k = u - 1; k > 0 && near[k - 1] > least; k--) near[k] = near[k - 1];
        near[k] = least;
    }
    return n > 0 ? near[n / 10] : 1;
}

/* Whether no junction but its own ends stands on the line from u to w. */
static int clear_of(uint32_t n, const struct point *at, uint32_t u, uint32_t w, double bend,
                    double clear) {
    uint32_t k, v;
    for (k = 1; k < POINTS; k++) {
        struct point p = on_line(at[u], at[w], bend, k / (double)POINTS);
        for (v = 1; v <= n; v++) {
            double dx = at[v].x - p.x, dy = at[v].y - p.y;
            if (v != u && v != w && dx * dx + dy * dy < clear * clear) return 0;
        }
    }
    return 1;
}

/* The least bend that is clear, up to three tenths of the length; 0 where there is none. */
static double bend_of(uint32_t n, const struct point *at, uint32_t u, uint32_t w, double clear) {
    double most = 0.3 * places_distance(at[u], at[w]);
    size_t k;
    for (k = 0; k < sizeof ASIDE / sizeof ASIDE[0]; k++) {
        double bend = ASIDE[k] * clear;
        if (bend > most || -bend > most) break;
        if (clear_of(n, at, u, w, bend, clear)) return bend;
    }
    return 0;
}

void places_bends(uint32_t n, uint32_t m, const uint8_t *left, const uint8_t *right,
                  const struct point *at, double *bend) {
    struct ends e = {0, 0, NULL, NULL};
    double clear = CLOSE * nearness(n, at);
    uint32_t i;
    e.n = n;
    e.m = m;
    e.left = left;
    e.right = right;
    if (clear > CLEAR) clear = CLEAR;
    for (i = 0; i < m; i++) {
        uint32_t a = left[i], b = right[i];
        if (!places_sound(&e, i)) bend[i] = 0;
        else bend[i] = a < b ? bend_of(n, at, a, b, clear) : -bend_of(n, at, b, a, clear);
    }
}

/* Whether two junctions have the same place. */
static int coincide(uint32_t n, const struct point *at) {
    uint32_t u, v;
    for (u = 1; u <= n; u++)
        for (v = u + 1; v <= n; v++)
            if (at[u].x == at[v].x && at[u].y == at[v].y) return 1;
    return 0;
}

int places_given(uint32_t n, uint32_t m, const uint8_t *left, const uint8_t *right,
                 struct point *at) {
    struct ends e = {0, 0, NULL, NULL};
    double sum = 0, scale;
    uint32_t i, v, used = 0;
    e.n = n;
    e.m = m;
    e.left = left;
    e.right = right;
    if (coincide(n, at)) return 0;
    for (i = 0; i < m; i++)
        if (places_sound(&e, i)) {
            used++;
            sum += places_distance(at[left[i]], at[right[i]]);
        }
    if (sum > 1e15) return 0;
    scale = sum > 0 ? used / sum : 1;
    for (v = n; v >= 1; v--) {
        at[v].x = (at[v].x - at[1].x) * scale;
        at[v].y = (at[1].y - at[v].y) * scale;
    }
    return 1;
}
