/* Networks whose shape is known: a path goes in lines that turn, a star in circles, a network of
   nearly all pairs on a circle. Stress draws these too long, too dense or without any order. */
#include "places.h"

enum { PATH_FROM = 24, STAR_FROM = 16, DENSE_FROM = 10, CIRCLE = 90 };

static const double HALF_TURN = 3.14159265358979323846;

static uint32_t degree(const struct beside *b, uint32_t v) {
    return (uint32_t)b->first[v + 1] - b->first[v];
}

/* The place at an angle from -half a turn to half a turn on a circle, by the series of cosine and
   sine. */
static struct point around(double radius, double angle) {
    double cosine = 1, sine = angle;
    struct point p = {0, 0};
    int k;
    for (k = 1; k <= 13; k++) {
        p.x += cosine;
        p.y += sine;
        cosine *= -angle * angle / ((2 * k - 1) * (2 * k));
        sine *= -angle * angle / ((2 * k) * (2 * k + 1));
    }
    p.x *= radius;
    p.y *= radius;
    return p;
}

/* The end of a path with the smaller number; 0 where the network is no path. */
static uint32_t tip(const struct ends *e, const struct beside *b) {
    uint32_t v, found = 0, tips = 0;
    for (v = e->n; v >= 1; v--) {
        if (degree(b, v) < 1 || degree(b, v) > 2) return 0;
        if (degree(b, v) == 1) {
            found = v;
            tips++;
        }
    }
    return tips == 2 ? found : 0;
}

/* Lines from left to right and back; 0 where a ring stands beside the path. */
static int path(const struct ends *e, const struct beside *b, uint32_t v, struct point *at) {
    uint32_t line = 1, last = 0, k;
    while (2 * line * line < 3 * e->n) line++;
    for (k = 0; k < e->n; k++) {
        uint32_t row = k / line, along = k % line, next;
        at[v].x = row % 2 == 0 ? along : line - 1 - along;
        at[v].y = row;
        if (k + 1 == e->n) break;
        next = b->list[b->first[v]];
        if (next == last && degree(b, v) == 1) return 0;
        if (next == last) next = b->list[b->first[v] + 1];
        last = v;
        v = next;
    }
    return 1;
}

/* The junction that all trenches of a star have; 0 where the network is none. */
static uint32_t middle(const struct ends *e, const struct beside *b) {
    uint32_t v;
    for (v = 1; v <= e->n; v++)
        if (degree(b, v) == e->n - 1) return v;
    return 0;
}

/* Circles around a junction, each wide enough for what stands on it. */
static void star(uint32_t n, uint32_t centre, struct point *at) {
    uint32_t circles = (n + CIRCLE / 2) / CIRCLE, v, k = 0;
    if (circles == 0) circles = 1;
    at[centre].x = at[centre].y = 0;
    for (v = 1; v <= n; v++) {
        if (v == centre) continue;
        at[v] = around(2.2 + n / 40.0 + (k % circles) * 1.2, HALF_TURN * (2.0 * k / (n - 1) - 1));
        k++;
    }
}

/* One circle, with junction 1 at its top. */
static void circle(uint32_t n, struct point *at) {
    uint32_t v;
    for (v = 1; v <= n; v++) {
        double part = 2.0 * (v - 1) / n - 0.5;
        at[v] = around(n / 7.0, HALF_TURN * (part > 1 ? part - 2 : part));
    }
}

int places_shape(const struct ends *e, const struct beside *b, struct point *at) {
    uint32_t n = e->n, trenches = b->first[n + 1] / 2u, v;
    if (n >= PATH_FROM && trenches == n - 1 && (v = tip(e, b)) > 0 && path(e, b, v, at)) return 1;
    if (n >= STAR_FROM && trenches == n - 1 && (v = middle(e, b)) > 0) {
        star(n, v, at);
        return 1;
    }
    if (n < DENSE_FROM || 4 * trenches <= n * (n - 1)) return 0;
    circle(n, at);
    return 1;
}
