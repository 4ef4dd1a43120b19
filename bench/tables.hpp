// Tables for the bench, with what the procedures are asked about each of them.
#pragma once

#include <algorithm>
#include <cstdint>
#include <set>
#include <utility>
#include <vector>

#include "star.h"

namespace {

struct Table {
    uint32_t n = 0;
    std::vector<uint8_t> left, right, weight; // columns as the doors take them
    std::vector<uint8_t> mark;                // a least network
    std::vector<uint8_t> tree;                // a network, mostly not least
    std::vector<uint8_t> claim;               // any marks
    uint64_t in_use[STAR_COLUMN_WORDS] = {0}; // of a working table
    bool working = false;
    uint32_t row = 1, junction = 1, count = 1; // what is asked about: a row, and rows at a junction
    uint32_t ends[STAR_MAX_RUNS] = {0};        // the last row of each of eight districts
    size_t rows() const { return left.size(); }
    bool used(size_t i) const { return !working || star_in_use(in_use, i + 1); }
    int32_t price(size_t i) const { return star_get_price(weight.data(), i); }

    void add(uint32_t a, uint32_t b, int32_t price) {
        left.push_back(uint8_t(a));
        right.push_back(uint8_t(b));
        weight.resize(weight.size() + 4);
        star_put_price(weight.data(), left.size() - 1, price);
    }
};

uint64_t state = 88172645463325252u;

uint32_t any(uint64_t below) {
    state ^= state << 13;
    state ^= state >> 7;
    state ^= state << 17;
    return uint32_t((state >> 11) % below);
}

// Whether the rows before it join the two ends of a row: parts are joined as they come.
struct Parts {
    std::vector<uint32_t> up;
    explicit Parts(uint32_t n) : up(n + 1) {
        for (uint32_t v = 0; v <= n; v++) up[v] = v;
    }
    uint32_t root(uint32_t v) {
        while (up[v] != v) v = up[v] = up[up[v]];
        return v;
    }
    bool join(uint32_t a, uint32_t b) {
        a = root(a), b = root(b);
        up[a] = b;
        return a != b;
    }
};

// The fewest rows that a network has at a junction: one for each group that there is without it.
uint32_t fewest(const Table &t, uint32_t junction) {
    Parts parts(t.n);
    uint32_t groups = t.n - 1;
    for (size_t i = 0; i < t.rows(); i++)
        if (t.used(i) && t.left[i] != junction && t.right[i] != junction)
            groups -= parts.join(t.left[i], t.right[i]);
    return groups;
}

// What is asked about a table whose rows are there: the row in the middle, its left end with as few
// rows as can be, eight runs of as many rows each, the uppermost network, and marks at one row in
// two.
void ask_about(Table &t) {
    Parts parts(t.n);
    t.mark.assign(t.rows(), 0);
    t.tree.assign(t.rows(), 0);
    t.claim.assign(t.rows(), 0);
    for (size_t i = 0; i < t.rows(); i++) {
        t.claim[i] = uint8_t(any(2));
        if (t.used(i)) t.tree[i] = parts.join(t.left[i], t.right[i]);
    }
    t.row = uint32_t(t.rows() / 2);
    while (!t.used(t.row - 1)) t.row++;
    t.junction = t.left[t.row - 1];
    t.count = fewest(t, t.junction);
    for (uint32_t i = 0; i < STAR_MAX_RUNS; i++)
        t.ends[i] = (i + 1) * uint32_t(t.rows()) / STAR_MAX_RUNS;
}

// A connected table with prices from one number to another; no two rows join the same pair.
Table make(uint32_t n, size_t m, int32_t from, int32_t to) {
    Table t;
    t.n = n;
    std::set<std::pair<uint32_t, uint32_t>> pairs;
    for (size_t i = 0; i < m; i++) {
        uint32_t a, b;
        do {
            a = i + 1 < n ? uint32_t(i) + 2 : 1 + any(n);
            b = i + 1 < n ? 1 + any(uint32_t(i) + 1) : 1 + any(n);
        } while (a == b || !pairs.insert({std::min(a, b), std::max(a, b)}).second);
        t.add(a, b, int32_t(from + int64_t(any(uint64_t(int64_t(to) - from + 1)))));
    }
    ask_about(t);
    return t;
}

// A working table of 1,024 rows, half of them struck; the first n - 1 join all junctions.
Table half_struck(uint32_t n) {
    Table t = make(n, STAR_MAX_ROWS, 0, STAR_MAX_PRICE);
    size_t struck = 0;
    t.working = true;
    for (size_t i = 1; i <= STAR_MAX_ROWS; i++) star_set_in_use(t.in_use, i, 1);
    while (struck < STAR_MAX_ROWS / 2) {
        size_t row = n + any(STAR_MAX_ROWS - n + 1);
        struck += size_t(star_in_use(t.in_use, row));
        star_set_in_use(t.in_use, row, 0);
    }
    ask_about(t);
    return t;
}

// The last rows of a working table in use, and no others.
Table at_the_bottom(uint32_t n, size_t m) {
    Table few = make(n, m, 0, STAR_MAX_PRICE), t;
    t.n = n;
    t.working = true;
    for (size_t i = 0; i < STAR_MAX_ROWS - m; i++) t.add(1, 2, 0);
    for (size_t i = 0; i < m; i++) t.add(few.left[i], few.right[i], few.price(i));
    for (size_t i = t.rows() - m; i < t.rows(); i++) star_set_in_use(t.in_use, i + 1, 1);
    ask_about(t);
    return t;
}

// The rows in use of a working table, packed.
Table packed(const Table &from) {
    Table t;
    t.n = from.n;
    for (size_t i = 0; i < from.rows(); i++)
        if (from.used(i)) t.add(from.left[i], from.right[i], from.price(i));
    ask_about(t);
    return t;
}

// A junction with a row to each of the 254 others.
Table boiler_house(uint32_t count) {
    Table t = make(255, STAR_MAX_ROWS, 0, STAR_MAX_PRICE);
    uint32_t a = 1, b = 1;
    for (size_t i = 0; i < t.rows(); i++) {
        if (++b > t.n) a++, b = a + 1;
        t.left[i] = uint8_t(a);
        t.right[i] = uint8_t(b);
    }
    ask_about(t);
    t.junction = 1;
    t.count = count;
    return t;
}

// Tables made to be slow for rows at junction 1: the prices there fall from one junction to the
// next, so that each exchange moves all that was moved before, and dear rows lead to three junctions
// beside. The exchanges go along a chain of 208 junctions, or from one junction to all the others.
Table slow_outlets(bool chain) {
    Table t;
    uint32_t inner = chain ? 208 : 205, first = 2, last = first + inner - 1;
    t.n = last + 3;
    for (uint32_t v = first; v <= last; v++) t.add(1, v, int32_t(1000000 - 1000 * v));
    for (uint32_t v = first; v < last; v++) t.add(chain ? v : first, v + 1, 1000);
    for (uint32_t v = first; t.rows() < 1022; v = v == last ? first : v + 1)
        for (uint32_t k = 1; k <= 3 && t.rows() < 1022; k++)
            t.add(v, last + k, int32_t(5000000 + 10 * t.rows()));
    ask_about(t);
    t.junction = 1;
    t.count = fewest(t, 1);
    return t;
}

} // namespace
