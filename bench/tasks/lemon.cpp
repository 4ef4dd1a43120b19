/* The ten tasks with LEMON, in C++. usage: lemon TABLE */
#include "timed.h"

/* set-up */
#include <lemon/bfs.h>
#include <lemon/adaptors.h>
#include <lemon/connectivity.h>
#include <lemon/kruskal.h>
#include <lemon/list_graph.h>
#include <algorithm>
#include <sstream>
#include <vector>

using namespace lemon;
typedef ListGraph Graph;
typedef Graph::EdgeMap<int64_t> Prices;
typedef Graph::EdgeMap<bool> Plan;

static Graph g;
static Prices price(g);
static Plan plan(g), other(g);
static std::vector<Graph::Node> node;
static std::vector<Graph::Edge> row;

static void read_table(const char *text) {
    std::istringstream in(text);
    std::string word;
    int n, u, v, p, mark;
    in >> word >> n;
    for (int k = 0; k <= n; k++) node.push_back(k ? g.addNode() : Graph::Node(INVALID));
    while (in >> u >> v >> p >> mark) {
        row.push_back(g.addEdge(node[u], node[v]));
        price[row.back()] = p;
        plan[row.back()] = mark;
    }
    kruskal(g, price, other);
}

static int64_t total(const Plan &chosen) {
    int64_t sum = 0;
    for (Graph::EdgeIt e(g); e != INVALID; ++e)
        if (chosen[e]) sum += price[e];
    return sum;
}

/* The dearest row of a plan between the ends of an edge. */
static int64_t dearest(const Plan &chosen, Graph::Edge of) {
    FilterEdges<Graph, const Plan> tree(g, chosen);
    Bfs<FilterEdges<Graph, const Plan> > bfs(tree);
    bfs.run(g.u(of), g.v(of));
    int64_t most = INT64_MIN;
    for (Graph::Node v = g.v(of); v != g.u(of); v = bfs.predNode(v))
        most = std::max(most, (int64_t)price[bfs.predArc(v)]);
    return most;
}

/* task least */
static int64_t least() {
    Plan tree(g);
    return kruskal(g, price, tree);
}

/* task check */
static int64_t check() {
    FilterEdges<Graph, Plan> marked(g, plan);
    return tree(marked) && total(plan) == least();
}

/* task only */
static int64_t only() {
    Plan tree(g);
    kruskal(g, price, tree);
    for (Graph::EdgeIt e(g); e != INVALID; ++e)
        if (!tree[e] && price[e] <= dearest(tree, e)) return 0;
    return 1;
}

/* task exchange */
static int64_t exchange() {
    int64_t most = 0;
    for (Graph::EdgeIt e(g); e != INVALID; ++e)
        if (!plan[e]) most = std::max(most, dearest(plan, e) - (int64_t)price[e]);
    return most;
}

/* task quote */
static int64_t quote() {
    int64_t before = price[row[6]];
    price[row[6]] = 9999;
    int64_t after = least();
    price[row[6]] = before;
    return after;
}

/* task breaking */
static int64_t breaking() {
    Plan without(g, true), tree(g, false);
    without[row[6]] = false;
    FilterEdges<Graph, Plan> rest(g, without);
    if (!connected(rest)) return -1;
    kruskal(rest, price, tree);
    return dearest(tree, row[6]);
}

/* task path */
static int64_t path() {
    FilterEdges<Graph, Plan> tree(g, plan);
    Bfs<FilterEdges<Graph, Plan> > bfs(tree);
    bfs.run(node[1], node[40]);
    return bfs.dist(node[40]);
}

/* task which */
static int64_t which() { return total(plan) <= total(other) ? 1 : 2; }

/* task mend */
static int64_t mend() {
    Graph::EdgeMap<std::pair<int64_t, bool> > order(g);
    for (Graph::EdgeIt e(g); e != INVALID; ++e)
        order[e] = std::make_pair((int64_t)price[e], plan[e] == (e == row[0]));
    std::vector<Graph::Edge> sorted(row);
    std::sort(sorted.begin(), sorted.end(),
              [&order](Graph::Edge a, Graph::Edge b) { return order[a] < order[b]; });
    Plan tree(g, false);
    Graph::NodeMap<int> index(g);
    UnionFind<Graph::NodeMap<int> > joined(index);
    for (Graph::NodeIt v(g); v != INVALID; ++v) joined.insert(v);
    for (size_t k = 0; k < sorted.size(); k++)
        if (joined.join(g.u(sorted[k]), g.v(sorted[k]))) tree[sorted[k]] = true;
    return total(tree);
}

/* task outlets */
static int64_t shifted(int64_t by) {
    Prices moved(g);
    Plan tree(g);
    for (Graph::EdgeIt e(g); e != INVALID; ++e)
        moved[e] = price[e] + (g.u(e) == node[1] || g.v(e) == node[1] ? by : 0);
    return kruskal(g, moved, tree) - 4 * by;
}

static int64_t outlets() {
    int64_t low = -10000, high = 10000;
    while (low < high) {
        int64_t middle = low + (high - low) / 2;
        if (shifted(middle) < shifted(middle + 1)) low = middle + 1;
        else high = middle;
    }
    return shifted(low);
}

/* end */
int main(int count, char **words) {
    size_t len = 0;
    char *text = count == 2 ? whole_file(words[1], &len) : NULL;
    if (!text) return 1;
    read_table(text);
    TIMED(least);
    TIMED(check);
    TIMED(only);
    TIMED(exchange);
    TIMED(quote);
    TIMED(breaking);
    TIMED(path);
    TIMED(which);
    TIMED(mend);
    TIMED(outlets);
    free(text);
    return 0;
}
