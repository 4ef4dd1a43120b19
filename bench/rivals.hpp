// What else solves the same tasks: the plain implementations of tests/, and what a programmer would
// write over LEMON. Each starts from the byte columns, as the doors do, and leaves what it found in
// `out`.
#pragma once

#include <climits>
#include <cstdio>

#include "doors.hpp"

extern "C" {
#include "plain_asked.h"
#include "plain_detours.h"
#include "plain_groups.h"
#include "plain_mend.h"
#include "plain_outlets.h"
}

#if __has_include(<lemon/smart_graph.h>)
#include <lemon/adaptors.h>
#include <lemon/bfs.h>
#include <lemon/connectivity.h>
#include <lemon/kruskal.h>
#include <lemon/smart_graph.h>
#define HAVE_LEMON 1
#endif

namespace {

// A table as the plain implementation takes it; of a working one the words of the rows in use.
struct Plain {
    struct in_use words;
    struct in_use *used;
    call c;
    explicit Plain(Table &t, std::vector<uint8_t> &mark)
        : words{t.in_use, STAR_COLUMN_WORDS}, used(t.working ? &words : nullptr),
          c{t.n,      t.left.data(), t.right.data(),  t.weight.data(), mark.data(),
            t.rows(), t.rows(),      t.weight.size(), t.rows()} {}
};

void plain_build(Table &t) {
    static std::vector<uint8_t> mark;
    mark.resize(t.rows());
    Plain p(t, mark);
    if (p.used) plain_work_mst1(p.words, &p.c, answer, 16);
    else plain_mst1(&p.c, answer, 16);
    out.total = amount();
}

void plain_check(Table &t) {
    Plain p(t, t.mark);
    if (p.used) plain_work_cst(p.words, &p.c, answer, 16);
    else plain_cst(&p.c, answer, 16);
    out.total = answer[0] == STAR_PASSED ? amount() : INT64_MIN;
}

void plain_price(Table &t) {
    Plain p(t, t.mark);
    plain_breaking(p.used, &p.c, t.row, answer, 16);
    out.total = answer[0] == STAR_NEVER ? INT64_MAX : amount();
}

void plain_quoted(Table &t) {
    Plain p(t, t.mark);
    plain_quote(p.used, &p.c, t.row, 0, answer, 24);
    star_quoted q = star_read_quoted(answer);
    out.before = q.before;
    out.after = q.after;
}

void plain_choice(Table &t) {
    Plain p(t, t.mark);
    out.first =
        plain_which(p.used, &p.c, {t.tree.data(), t.rows()}, {t.mark.data(), t.rows()}, answer, 16);
    out.total = amount();
}

void plain_ways(Table &t) {
    Plain p(t, t.tree);
    size_t words = STAR_COLUMN_WORDS * size_t(t.n);
    if (p.used) plain_work_paths(p.words, &p.c, 1, out.matrix, words, answer, 16);
    else plain_paths(&p.c, 1, out.matrix, words, answer, 16);
}

void plain_list(Table &t) {
    static std::vector<uint8_t> mark;
    mark.resize(t.rows());
    Plain p(t, mark);
    plain_digs(p.used, &p.c, out.text, sizeof out.text, answer, 16);
    out.total = amount();
}

void plain_plan_list(Table &t) {
    Plain p(t, t.tree);
    plain_plan_digs(p.used, &p.c, out.text, sizeof out.text, answer, 16);
    out.total = amount();
}

void plain_sum(Table &t) {
    Plain p(t, t.claim);
    if (p.used) plain_work_total(p.words, &p.c, answer, 16);
    else plain_total(&p.c, answer, 16);
    out.total = amount();
}

// The rows in use as numbers.
const struct rows &listed(const Table &t) {
    static struct rows r;
    r.m = 0;
    for (size_t i = 0; i < t.rows(); i++)
        if (t.used(i)) {
            r.row[r.m] = i + 1;
            r.a[r.m] = t.left[i];
            r.b[r.m] = t.right[i];
            r.price[r.m++] = t.price(i);
        }
    return r;
}

// Forests of the runs by Kruskal, and Kruskal once more over their rows.
void plain_runs(Table &t) {
    const struct rows &r = listed(t);
    static struct rows kept;
    uint8_t chosen[STAR_MAX_ROWS], last[STAR_MAX_ROWS];
    size_t from = 0, k;
    for (uint32_t end : t.ends) {
        size_t to = from;
        while (to < r.m && r.row[to] <= end) to++;
        rows_forest(&r, from, to, chosen);
        from = to;
    }
    std::memset(out.forests, 0, t.rows());
    std::memset(out.marks, 0, t.rows());
    for (k = kept.m = 0; k < r.m; k++)
        if (chosen[k]) {
            out.forests[r.row[k] - 1] = 1;
            kept.row[kept.m] = r.row[k];
            kept.a[kept.m] = r.a[k];
            kept.b[kept.m] = r.b[k];
            kept.price[kept.m++] = r.price[k];
        }
    rows_forest(&kept, 0, kept.m, last);
    out.total = 0;
    for (k = 0; k < kept.m; k++)
        if (last[k]) out.total += kept.price[k];
}

void mended_by_search(Table &t, const std::vector<uint8_t> &marks) {
    std::memcpy(out.marks, marks.data(), t.rows());
    ::plain_mend(&listed(t), out.marks, out.records);
}

void plain_mended(Table &t) { mended_by_search(t, t.claim); }
void plain_mended_none(Table &t) { mended_by_search(t, t.mark); }

void plain_shifted(Table &t) {
    struct outlets o = outlets_shifted(&listed(t), t.junction, t.count);
    out.total = o.exists ? o.total : INT64_MIN;
}

void plain_grouped(Table &t) {
    const struct rows &r = listed(t);
    uint8_t marked[STAR_MAX_ROWS], rings[STAR_MAX_ROWS];
    for (size_t k = 0; k < r.m; k++) marked[k] = t.claim[r.row[k] - 1];
    ::plain_groups(t.n, &r, marked, out.groups);
    ::plain_rings(t.n, &r, marked, rings);
    std::memset(out.rings, 0, t.rows());
    for (size_t k = 0; k < r.m; k++) out.rings[r.row[k] - 1] = rings[k];
}

void plain_beside(Table &t) { ::plain_detours(&listed(t), t.tree.data(), out.beside, t.rows()); }

// Every exchange of two rows, and a build for the least total.
void plain_most_saved(Table &t) {
    saving s = ::plain_best(&listed(t), t.tree.data());
    plain_build(t);
    out.after = out.total;
    out.first = s.out;
    out.second = s.in;
    out.total = s.saved;
}

// The way of each unmarked row along the tree, from its ends up to where they meet, by parents; the
// dearest row of it, and of each row on it the cheapest that passes, the uppermost among equals.
struct Walks {
    uint32_t up[STAR_MAX_JUNCTIONS + 1], row[STAR_MAX_JUNCTIONS + 1], far[STAR_MAX_JUNCTIONS + 1];

    explicit Walks(const Table &t) {
        std::vector<std::vector<uint32_t>> at(t.n + 1);
        for (size_t i = 0; i < t.rows(); i++)
            if (t.used(i) && t.tree[i]) {
                at[t.left[i]].push_back(uint32_t(i));
                at[t.right[i]].push_back(uint32_t(i));
            }
        std::vector<uint32_t> met{1};
        up[1] = row[1] = far[1] = 0;
        for (size_t k = 0; k < met.size(); k++)
            for (uint32_t i : at[met[k]]) {
                uint32_t v = met[k], w = uint32_t(t.left[i] + t.right[i]) - v;
                if (w == up[v]) continue;
                up[w] = v;
                row[w] = i;
                far[w] = far[v] + 1;
                met.push_back(w);
            }
    }

    // Calls f with each row of the way between two junctions.
    template <class F> void between(uint32_t a, uint32_t b, F f) const {
        while (a != b) {
            uint32_t &lower = far[a] >= far[b] ? a : b;
            f(row[lower]);
            lower = up[lower];
        }
    }
};

void walked_beside(Table &t) {
    Walks w(t);
    std::memset(out.beside, 0, sizeof(uint32_t) * t.rows());
    for (size_t i = 0; i < t.rows(); i++) {
        if (!t.used(i) || t.tree[i]) continue;
        uint32_t top = UINT32_MAX;
        int32_t own = t.price(i);
        w.between(t.left[i], t.right[i], [&](uint32_t k) {
            if (top == UINT32_MAX || t.price(k) > t.price(top) ||
                (t.price(k) == t.price(top) && k < top))
                top = k;
            uint32_t &other = out.beside[k];
            if (!other || own < t.price(other - 1)) other = uint32_t(i) + 1;
        });
        out.beside[i] = top + 1;
    }
}

void walked_best(Table &t) {
    walked_beside(t);
    int64_t most = 0;
    uint32_t from = 0, to = 0;
    for (size_t i = 0; i < t.rows(); i++) {
        if (!t.used(i) || t.tree[i]) continue;
        int64_t saved = int64_t(t.price(out.beside[i] - 1)) - t.price(i);
        if (saved > most) most = saved, from = out.beside[i], to = uint32_t(i) + 1;
    }
    plain_build(t);
    out.after = out.total;
    out.first = from;
    out.second = to;
    out.total = most;
}

void plain_restored(Table &t) {
    std::memcpy(out.in_use, t.in_use, sizeof out.in_use);
    struct in_use u {
        out.in_use, STAR_COLUMN_WORDS
    };
    plain_strike(u, t.row, answer, 16);
    plain_restore(u, t.row, answer, 16);
}

#ifdef HAVE_LEMON
using Graph = lemon::SmartGraph;
using Chosen = Graph::EdgeMap<bool>;
using Part = lemon::FilterEdges<Graph, Chosen>;

// A table as a graph of LEMON. The costs have 64 bits, since kruskal adds up in their own type.
struct Lemon {
    Graph g;
    std::vector<Graph::Node> node;
    std::vector<Graph::Edge> edge; // of each row; of one that is not in use none
    Graph::EdgeMap<int64_t> cost;
    Graph::EdgeMap<uint32_t> row; // counted from 0

    explicit Lemon(const Table &t)
        : node(t.n + 1), edge(t.rows(), lemon::INVALID), cost(g), row(g) {
        g.reserveNode(int(t.n));
        g.reserveEdge(int(t.rows()));
        for (uint32_t v = 1; v <= t.n; v++) node[v] = g.addNode();
        for (size_t i = 0; i < t.rows(); i++)
            if (t.used(i)) {
                edge[i] = g.addEdge(node[t.left[i]], node[t.right[i]]);
                cost[edge[i]] = t.price(i);
                row[edge[i]] = uint32_t(i);
            }
    }

    void choose(Chosen &to, const std::vector<uint8_t> &marks) const {
        for (size_t i = 0; i < marks.size(); i++)
            if (edge[i] != lemon::INVALID) to[edge[i]] = marks[i];
    }

    int64_t total(const Chosen &of) const {
        int64_t sum = 0;
        for (Graph::EdgeIt e(g); e != lemon::INVALID; ++e)
            if (of[e]) sum += cost[e];
        return sum;
    }
};

void lemon_check(Table &t) {
    Lemon l(t);
    Chosen plan(l.g), tree(l.g);
    l.choose(plan, t.mark);
    int64_t total = l.total(plan);
    bool least = lemon::tree(Part(l.g, plan)) && lemon::kruskal(l.g, l.cost, tree) == total;
    out.total = least ? total : INT64_MIN;
}

void lemon_quote(Table &t) {
    Lemon l(t);
    Chosen tree(l.g);
    out.before = lemon::kruskal(l.g, l.cost, tree);
    l.cost[l.edge[t.row - 1]] = 0;
    out.after = lemon::kruskal(l.g, l.cost, tree);
}

// The dearest row of a tree between two junctions; none where there is no way.
Graph::Edge dearest(Lemon &l, Chosen &tree, Graph::Node from, Graph::Node to) {
    Part part(l.g, tree);
    lemon::Bfs<Part> bfs(part);
    bfs.run(from, to);
    Graph::Edge found = lemon::INVALID;
    if (!bfs.reached(to)) return found;
    for (Graph::Node v = to; v != from; v = bfs.predNode(v)) {
        Graph::Edge e = bfs.predArc(v);
        if (found == lemon::INVALID || l.cost[e] > l.cost[found]) found = e;
    }
    return found;
}

void lemon_breaking(Table &t) {
    Lemon l(t);
    Chosen rest(l.g, true), tree(l.g, false);
    Graph::Edge own = l.edge[t.row - 1];
    rest[own] = false;
    Part part(l.g, rest);
    lemon::kruskal(part, l.cost, tree);
    Graph::Edge top = dearest(l, tree, l.g.u(own), l.g.v(own));
    out.total = top == lemon::INVALID ? INT64_MAX : l.cost[top];
}

void lemon_which(Table &t) {
    Lemon l(t);
    Chosen first(l.g), second(l.g);
    l.choose(first, t.tree);
    l.choose(second, t.mark);
    int64_t a = l.total(first), b = l.total(second);
    bool trees = lemon::tree(Part(l.g, first)) && lemon::tree(Part(l.g, second));
    out.first = !trees ? 0 : a <= b ? 1 : 2;
    out.total = trees ? std::min(a, b) : INT64_MIN;
}

void lemon_paths(Table &t) {
    Lemon l(t);
    Chosen tree(l.g);
    l.choose(tree, t.tree);
    Part part(l.g, tree);
    lemon::Bfs<Part> bfs(part);
    bfs.init();
    bfs.addSource(l.node[1]);
    std::memset(out.matrix, 0, STAR_COLUMN_WORDS * sizeof *out.matrix);
    while (!bfs.emptyQueue()) {
        Graph::Node v = bfs.processNextNode();
        if (v == l.node[1]) continue;
        uint64_t *to = out.matrix + STAR_COLUMN_WORDS * l.g.id(v);
        uint32_t row = l.row[Graph::Edge(bfs.predArc(v))];
        std::memcpy(to, out.matrix + STAR_COLUMN_WORDS * l.g.id(bfs.predNode(v)),
                    STAR_COLUMN_WORDS * sizeof *to);
        to[row / 64] |= uint64_t(1) << row % 64;
    }
}

// Kruskal of each run, and of what it chose.
void lemon_districts(Table &t) {
    Lemon l(t);
    Chosen run(l.g), forest(l.g), forests(l.g, false), tree(l.g);
    uint32_t from = 0;
    for (uint32_t end : t.ends) {
        for (Graph::EdgeIt e(l.g); e != lemon::INVALID; ++e)
            run[e] = l.row[e] >= from && l.row[e] < end;
        Part part(l.g, run);
        lemon::kruskal(part, l.cost, forest);
        for (uint32_t i = from; i < end; i++)
            if (l.edge[i] != lemon::INVALID) forests[l.edge[i]] = forest[l.edge[i]];
        from = end;
    }
    Part part(l.g, forests);
    out.total = lemon::kruskal(part, l.cost, tree);
    for (size_t i = 0; i < t.rows(); i++)
        out.forests[i] = l.edge[i] != lemon::INVALID && forests[l.edge[i]];
}

// Rings and gaps by union-find, then for each row outside a search for the dearest on its way.
void mended_by_lemon(Table &t, const std::vector<uint8_t> &marks) {
    Lemon l(t);
    Chosen tree(l.g, false);
    Graph::NodeMap<int> index(l.g);
    lemon::UnionFind<Graph::NodeMap<int>> joined(index);
    for (Graph::NodeIt v(l.g); v != lemon::INVALID; ++v) joined.insert(v);
    for (int pass = 1; pass >= 0; pass--)
        for (size_t i = 0; i < t.rows(); i++)
            if (t.used(i) && marks[i] == pass && joined.join(l.node[t.left[i]], l.node[t.right[i]]))
                tree[l.edge[i]] = true;
    for (size_t i = 0; i < t.rows(); i++) {
        if (!t.used(i) || tree[l.edge[i]]) continue;
        Graph::Edge top = dearest(l, tree, l.node[t.left[i]], l.node[t.right[i]]);
        if (l.cost[top] <= t.price(i)) continue;
        tree[top] = false;
        tree[l.edge[i]] = true;
    }
    for (size_t i = 0; i < t.rows(); i++) out.marks[i] = t.used(i) && tree[l.edge[i]];
}

void lemon_mend(Table &t) { mended_by_lemon(t, t.claim); }
void lemon_mend_none(Table &t) { mended_by_lemon(t, t.mark); }

// One number more or less on every price at the junction, until the least network has t rows there;
// prices that differ are asked for.
void lemon_outlets(Table &t) {
    Lemon l(t);
    Chosen tree(l.g);
    Graph::EdgeMap<int64_t> moved(l.g);
    Graph::Node at = l.node[t.junction];
    auto shifted = [&](int64_t by) {
        for (Graph::EdgeIt e(l.g); e != lemon::INVALID; ++e)
            moved[e] = l.cost[e] + (l.g.u(e) == at || l.g.v(e) == at ? by : 0);
        return lemon::kruskal(l.g, moved, tree) - by * int64_t(t.count);
    };
    int64_t low = -(int64_t(1) << 33), high = int64_t(1) << 33;
    while (low < high) { // the largest of these least totals is that of t rows
        int64_t middle = low + (high - low) / 2;
        if (shifted(middle) < shifted(middle + 1)) low = middle + 1;
        else high = middle;
    }
    out.total = shifted(low);
}

void lemon_groups(Table &t) {
    Lemon l(t);
    Chosen marked(l.g), cut(l.g, false);
    l.choose(marked, t.claim);
    Part part(l.g, marked);
    Graph::NodeMap<int> component(l.g);
    int first[STAR_MAX_JUNCTIONS] = {0};
    lemon::connectedComponents(part, component);
    for (uint32_t v = 1; v <= t.n; v++) {
        int &least = first[component[l.node[v]]];
        if (!least) least = int(v);
        out.groups[v - 1] = uint8_t(least);
    }
    lemon::biEdgeConnectedCutEdges(part, cut);
    for (size_t i = 0; i < t.rows(); i++) out.rings[i] = t.used(i) && t.claim[i] && !cut[l.edge[i]];
}
#endif

} // namespace
