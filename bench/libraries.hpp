// Least networks by other libraries, where they are installed: LEMON, Boost Graph and igraph. Each
// builds its graph from the byte columns and finds the total.
#pragma once

#include "rivals.hpp"

#if __has_include(<boost/graph/kruskal_min_spanning_tree.hpp>)
#include <boost/graph/adjacency_list.hpp>
#include <boost/graph/kruskal_min_spanning_tree.hpp>
#define HAVE_BOOST 1
#endif
#if __has_include(<igraph/igraph.h>)
#include <igraph/igraph.h>
#define HAVE_IGRAPH 1
#endif

namespace {

#ifdef HAVE_LEMON
void lemon_tree(Table &t) {
    Graph g;
    g.reserveNode(int(t.n));
    g.reserveEdge(int(t.rows()));
    std::vector<Graph::Node> node(t.n + 1);
    for (uint32_t v = 1; v <= t.n; v++) node[v] = g.addNode();
    Graph::EdgeMap<int64_t> cost(g);
    for (size_t i = 0; i < t.rows(); i++)
        if (t.used(i)) cost[g.addEdge(node[t.left[i]], node[t.right[i]])] = t.price(i);
    std::vector<Graph::Edge> tree;
    lemon::kruskal(g, cost, std::back_inserter(tree));
    out.total = 0;
    for (auto e : tree) out.total += cost[e];
}
#endif

#ifdef HAVE_BOOST
void boost_tree(Table &t) {
    using Weight = boost::property<boost::edge_weight_t, int32_t>;
    using Graph = boost::adjacency_list<boost::vecS, boost::vecS, boost::undirectedS,
                                        boost::no_property, Weight>;
    Graph g(t.n);
    for (size_t i = 0; i < t.rows(); i++)
        if (t.used(i)) boost::add_edge(t.left[i] - 1u, t.right[i] - 1u, t.price(i), g);
    std::vector<boost::graph_traits<Graph>::edge_descriptor> tree;
    boost::kruskal_minimum_spanning_tree(g, std::back_inserter(tree));
    auto cost = boost::get(boost::edge_weight, g);
    out.total = 0;
    for (auto e : tree) out.total += cost[e];
}
#endif

#ifdef HAVE_IGRAPH
void igraph_tree(Table &t) {
    igraph_t g;
    igraph_vector_int_t ends, tree;
    igraph_vector_t cost;
    igraph_vector_int_init(&ends, igraph_integer_t(2 * t.rows()));
    igraph_vector_init(&cost, igraph_integer_t(t.rows()));
    igraph_vector_int_init(&tree, 0);
    igraph_integer_t k = 0;
    for (size_t i = 0; i < t.rows(); i++)
        if (t.used(i)) {
            VECTOR(ends)[2 * k] = t.left[i] - 1;
            VECTOR(ends)[2 * k + 1] = t.right[i] - 1;
            VECTOR(cost)[k++] = t.price(i);
        }
    igraph_vector_int_resize(&ends, 2 * k);
    igraph_vector_resize(&cost, k);
    igraph_create(&g, &ends, igraph_integer_t(t.n), IGRAPH_UNDIRECTED);
    igraph_minimum_spanning_tree(&g, &tree, &cost);
    out.total = 0;
    for (igraph_integer_t i = 0; i < igraph_vector_int_size(&tree); i++)
        out.total += int64_t(VECTOR(cost)[VECTOR(tree)[i]]);
    igraph_destroy(&g);
    igraph_vector_int_destroy(&ends);
    igraph_vector_int_destroy(&tree);
    igraph_vector_destroy(&cost);
}
#endif

// Says which of them are not installed.
void tell_missing() {
#ifndef HAVE_LEMON
    std::printf("LEMON is not installed (Debian: liblemon-dev).\n");
#endif
#ifndef HAVE_BOOST
    std::printf("Boost Graph is not installed (Debian: libboost-graph-dev).\n");
#endif
#ifndef HAVE_IGRAPH
    std::printf("igraph is not installed (Debian: libigraph-dev).\n");
#endif
}

} // namespace
