"""The ten tasks with networkx. usage: tasks_networkx.py TABLE"""
import sys

from timed import timed

# set-up
import networkx as nx


def rows_of(path):
    with open(path) as file:
        for line in file:
            words = line.split()
            if words[0] != "junctions":
                yield [int(word) for word in words]


rows = list(rows_of(sys.argv[1]))
G = nx.Graph()
for u, v, price, mark in rows:
    G.add_edge(u, v, price=price)
plan = [(u, v) for u, v, price, mark in rows if mark]
other = list(nx.minimum_spanning_edges(G, weight="price", data=False))


def total(edges):
    return sum(G.edges[e]["price"] for e in edges)


def least_total(graph):
    return sum(d["price"] for u, v, d in nx.minimum_spanning_edges(graph, weight="price"))


def dearest(tree, u, v):
    way = nx.shortest_path(tree, u, v)
    return max((G.edges[e]["price"], e) for e in zip(way, way[1:]))


# task least
def least():
    return least_total(G)


# task check
def check():
    return nx.is_tree(nx.Graph(plan)) and total(plan) == least_total(G)


# task only
def only():
    tree = nx.minimum_spanning_tree(G, weight="price")
    return all(d["price"] > dearest(tree, u, v)[0] for u, v, d in G.edges(data=True)
               if not tree.has_edge(u, v))


# task exchange
def exchange():
    tree = nx.Graph(plan)
    return max(dearest(tree, u, v)[0] - d["price"] for u, v, d in G.edges(data=True)
               if not tree.has_edge(u, v))


# task quote
def quote():
    u, v = rows[6][:2]
    H = G.copy()
    H.edges[u, v]["price"] = 9999
    return least_total(H)


# task breaking
def breaking():
    u, v = rows[6][:2]
    H = G.copy()
    H.remove_edge(u, v)
    if not nx.has_path(H, u, v):
        return None
    return dearest(nx.minimum_spanning_tree(H, weight="price"), u, v)[0]


# task path
def path():
    return nx.shortest_path_length(nx.Graph(plan), 1, 40)


# task which
def which():
    return 1 if total(plan) <= total(other) else 2


# task mend
def mend():
    marked = {frozenset(e) for e in plan} ^ {frozenset(rows[0][:2])}
    H = G.copy()
    for u, v, d in H.edges(data=True):
        d["order"] = (d["price"], frozenset((u, v)) not in marked)
    tree = nx.Graph()
    tree.add_nodes_from(H)
    joined = nx.utils.UnionFind(H)
    for u, v, d in sorted(H.edges(data=True), key=lambda e: e[2]["order"]):
        if joined[u] != joined[v]:
            joined.union(u, v)
            tree.add_edge(u, v)
    return total(tree.edges)


# task outlets
def outlets():
    def shifted(by):
        H = G.copy()
        for v in H[1]:
            H.edges[1, v]["price"] += by
        return least_total(H) - 4 * by
    low, high = -10000, 10000
    while low < high:
        middle = (low + high) // 2
        if shifted(middle) < shifted(middle + 1):
            low = middle + 1
        else:
            high = middle
    return shifted(low)


# end
for task in (least, check, only, exchange, quote, breaking, path, which, mend, outlets):
    timed(task)
