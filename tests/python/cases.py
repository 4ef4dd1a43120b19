"""Tables for the tests, by hypothesis, and what networkx and lists of all trees say of them."""
from itertools import combinations

import networkx as nx
from hypothesis import strategies as st

PRICES = st.one_of(st.integers(0, 4), st.integers(-9, 9),
                   st.sampled_from([-2**31, -2**31 + 1, 2**31 - 2, 2**31 - 1]))


@st.composite
def rows(draw, most=7, dense=12):
    """n, and rows between different junctions, mostly connected."""
    n = draw(st.integers(1, most))
    pairs = list(combinations(range(1, n + 1), 2))
    joined = [(draw(st.integers(1, v - 1)), v) for v in range(2, n + 1)]
    more = draw(st.lists(st.sampled_from(pairs), max_size=dense, unique=True)) if pairs else []
    if n > 2 and draw(st.integers(0, 9)) == 0:
        joined.pop(draw(st.integers(0, len(joined) - 1)))
    ends = list(dict.fromkeys(joined + more))
    order = draw(st.permutations(ends))
    turned = [pair[::-1] if draw(st.booleans()) else pair for pair in order]
    return n, [(u, v, draw(PRICES)) for u, v in turned]


@st.composite
def marked(draw):
    """The same with marks: a spanning tree, or any."""
    n, table = draw(rows())
    trees = all_trees(n, table)
    if trees and draw(st.integers(0, 3)):
        plan = trees[draw(st.integers(0, len(trees) - 1))]
    else:
        plan = [k for k in range(1, len(table) + 1) if draw(st.booleans())]
    return n, table, tuple(plan)


def graph(n, table):
    """The graph of a table; each edge knows its row."""
    g = nx.Graph()
    g.add_nodes_from(range(1, n + 1))
    for k, (u, v, price) in enumerate(table, 1):
        g.add_edge(u, v, price=price, row=k)
    return g


def least(n, table):
    """The least total by networkx, or None where no network is."""
    g = graph(n, table)
    if not nx.is_connected(g):
        return None
    return sum(d["price"] for _, _, d in nx.minimum_spanning_edges(g, weight="price"))


def all_trees(n, table):
    """The rows of every network."""
    trees = []
    for chosen in combinations(range(1, len(table) + 1), n - 1):
        up = list(range(n + 1))
        for k in chosen:
            a, b = (root(up, v) for v in table[k - 1][:2])
            if a == b:
                break
            up[a] = b
        else:
            trees.append(chosen)
    return trees


def root(up, v):
    while up[v] != v:
        v = up[v]
    return v


def total(table, plan):
    return sum(table[k - 1][2] for k in plan)
