"""The package against networkx, and against lists of all trees of small tables."""
import os
import unittest
from fractions import Fraction

import networkx as nx
from hypothesis import HealthCheck, Phase, given, settings
from hypothesis import strategies as st

import star
from cases import PRICES, all_trees, graph, least, marked, rows, total

try:
    import pandas
except ImportError:
    pandas = None

# The cases of each test: a seventeenth of all.
EACH = max(1, int(os.environ.get("CASES", "2000")) // 17)
tried = settings(max_examples=EACH, deadline=None, database=None, derandomize=True,
                 phases=[Phase.explicit, Phase.generate],
                 suppress_health_check=list(HealthCheck))


def refusal(call, *words):
    """The number of the refusal of a call, 0 where it is not refused."""
    try:
        call(*words)
    except star.Refused as refused:
        return refused.number
    return 0


class AgainstNetworkx(unittest.TestCase):
    @tried
    @given(rows(most=30, dense=60))
    def test_least_totals(self, case):
        n, table = case
        expected, t = least(n, table), star.Table(n, table)
        if expected is None:
            self.assertEqual(refusal(t.build), 11)
            return
        plan = t.build()
        self.assertEqual(plan.total, expected)
        self.assertEqual(plan.rows, t.plan)
        self.assertEqual(total(table, plan.rows), expected)
        self.assertTrue(nx.is_tree(self.planned(n, table, plan.rows)))
        self.assertTrue(t.check().passed)

    def planned(self, n, table, plan):
        g = nx.Graph()
        g.add_nodes_from(range(1, n + 1))
        g.add_edges_from(table[k - 1][:2] for k in plan)
        return g

    @tried
    @given(marked())
    def test_check(self, case):
        n, table, plan = case
        t, trees = star.Table(n, table), all_trees(n, table)
        t.plan = plan
        if plan not in trees:
            expected = 9 if len(plan) != n - 1 else 10
            self.assertEqual(refusal(t.check), expected)
            return
        verdict, cheapest = t.check(), min(total(table, tree) for tree in trees)
        self.assertEqual((verdict.total, verdict.least), (total(table, plan), cheapest))
        self.assertEqual(verdict.passed, total(table, plan) == cheapest)
        self.assertEqual(bool(verdict), verdict.passed)
        if verdict.passed:
            count = sum(total(table, tree) == cheapest for tree in trees)
            self.assertEqual(verdict.only, count == 1)
        else:
            self.exchanged(table, plan, trees, verdict.exchange, total(table, plan))

    def exchanged(self, table, plan, trees, exchange, before):
        """An exchange gives a network, and saves what it says."""
        after = tuple(sorted(set(plan) - {exchange.out} | {exchange.into}))
        self.assertIn(after, trees)
        self.assertEqual(before - total(table, after), exchange.saving)
        self.assertNotEqual(after, plan)

    @tried
    @given(rows())
    def test_other(self, case):
        n, table = case
        t, trees = star.Table(n, table), all_trees(n, table)
        if not trees:
            return
        plan = t.build().rows
        verdict = t.other()
        self.assertEqual(verdict.only, verdict.exchange is None)
        if verdict.exchange:
            self.exchanged(table, plan, trees, verdict.exchange, total(table, plan))
            self.assertEqual(verdict.exchange.saving, 0)

    @tried
    @given(marked())
    def test_mend(self, case):
        n, table, plan = case
        t, expected = star.Table(n, table), least(n, table)
        t.plan = plan
        if expected is None:
            self.assertEqual((refusal(t.mend), t.plan), (11, plan))
            return
        mended, marks = t.mend(), set(plan)
        for step in mended.steps:
            self.assertEqual((step.out is None, step.into is None),
                             (step.kind == "added", step.kind == "dropped"))
            marks -= {step.out}
            marks |= {step.into} - {None}
        self.assertEqual(tuple(sorted(marks)), mended.rows)
        self.assertEqual((mended.total, total(table, mended.rows), mended.rows),
                         (expected, expected, t.plan))

    @tried
    @given(rows(), st.data())
    def test_quote(self, case, data):
        n, table = case
        row, price = data.draw(st.integers(0, len(table) + 1)), data.draw(PRICES)
        t, expected = star.Table(n, table), least(n, table)
        if not 1 <= row <= len(table):
            self.assertEqual(refusal(t.quote, row, price), 7)
        elif expected is None:
            self.assertEqual(refusal(t.quote, row, price), 11)
        else:
            after = list(table)
            after[row - 1] = table[row - 1][:2] + (price,)
            quote = t.quote(row, price)
            self.assertEqual(quote, (expected, least(n, after)))
            self.assertEqual(quote.change, quote.after - expected)

    @tried
    @given(rows(), st.data())
    def test_breaking(self, case, data):
        n, table = case
        if not table or least(n, table) is None:
            return
        row = data.draw(st.integers(1, len(table)))
        without = graph(n, table)
        without.remove_edge(*table[row - 1][:2])
        price = star.Table(n, table).breaking(row)
        self.assertEqual(price is None, not nx.is_connected(without))
        if price is not None:
            tree = nx.minimum_spanning_tree(without, weight="price")
            way = nx.shortest_path(tree, *table[row - 1][:2])
            self.assertEqual(price, max(tree.edges[e]["price"] for e in zip(way, way[1:])))

    @tried
    @given(rows(), st.data())
    def test_outlets(self, case, data):
        n, table = case
        at, count = data.draw(st.integers(1, n)), data.draw(st.integers(0, 4))
        t, trees = star.Table(n, table), all_trees(n, table)
        totals = [total(table, tree) for tree in trees
                  if sum(at in table[k - 1][:2] for k in tree) == count]
        if not totals:
            self.assertEqual(refusal(t.outlets, at, count), 19 if trees else 11)
            return
        plan = t.outlets(at, count)
        self.assertEqual((plan.total, total(table, plan.rows)), (min(totals), min(totals)))
        self.assertEqual(sum(at in table[k - 1][:2] for k in plan.rows), count)

    @tried
    @given(marked(), st.data())
    def test_which(self, case, data):
        n, table, plan = case
        trees = all_trees(n, table)
        if plan not in trees:
            return
        other = trees[data.draw(st.integers(0, len(trees) - 1))]
        a, b = total(table, plan), total(table, other)
        choice = star.Table(n, table).which(plan, other)
        self.assertEqual(choice, (1 if a <= b else 2, min(a, b)))

    @tried
    @given(rows(), st.data())
    def test_path(self, case, data):
        n, table = case
        if least(n, table) is None:
            return
        t = star.Table(n, table)
        tree = self.planned(n, table, t.build().rows)
        u, v = data.draw(st.integers(1, n)), data.draw(st.integers(1, n))
        way, at = t.path(u, v), u
        for row in way:
            at = sum(table[row - 1][:2]) - at
        self.assertEqual((at, len(way)), (v, nx.shortest_path_length(tree, u, v)))

    @tried
    @given(rows(), st.data())
    def test_districts(self, case, data):
        n, table = case
        if not table or least(n, table) is None:
            return
        ends = sorted(data.draw(st.sets(st.integers(1, len(table)), max_size=3)) | {len(table)})
        found = star.Table(n, table).districts(ends)
        self.assertEqual((found.total, total(table, found.rows)), (least(n, table),) * 2)
        self.assertLessEqual(set(found.rows), {r for forest in found.forests for r in forest})
        for first, last, forest in zip([0] + ends, ends, found.forests):
            part = nx.Graph()
            for k in range(first + 1, last + 1):
                part.add_edge(table[k - 1][0], table[k - 1][1], price=table[k - 1][2])
            wanted = sum(d["price"] for _, _, d in nx.minimum_spanning_edges(part, weight="price"))
            self.assertEqual(total(table, forest), wanted)

    @tried
    @given(marked())
    def test_groups(self, case):
        n, table, plan = case
        t = star.Table(["j%d" % k for k in range(1, n + 1)],
                       [("j%d" % u, "j%d" % v, price) for u, v, price in table])
        t.plan = plan
        found, marked_rows = t.groups(), self.planned(n, table, plan)
        parts = sorted(sorted(part) for part in nx.connected_components(marked_rows))
        self.assertEqual([[int(name[1:]) for name in part] for part in found.groups], parts)
        bridges = {frozenset(e) for e in nx.bridges(marked_rows)}
        self.assertEqual(found.rings, tuple(k for k in plan
                                            if frozenset(table[k - 1][:2]) not in bridges))
        self.assertEqual(found.network, nx.is_tree(marked_rows))

    @tried
    @given(marked())
    def test_detours(self, case):
        n, table, plan = case
        t = star.Table(n, table)
        t.plan = plan
        if plan not in all_trees(n, table):
            self.assertEqual(refusal(t.detours), 9 if len(plan) != n - 1 else 10)
            return
        found, tree = t.detours(), self.planned(n, table, plan)
        ends = {frozenset(table[k - 1][:2]): k for k in plan}
        way = {k: self.way(tree, ends, *row[:2]) for k, row in enumerate(table, 1) if k not in plan}
        dearest = {k: max(on, key=lambda r: (table[r - 1][2], -r)) for k, on in way.items()}
        instead = {k: min((r for r in way if k in way[r]), default=None,
                          key=lambda r: (table[r - 1][2], r)) for k in plan}
        self.assertEqual((found.total, dict(found.dearest), dict(found.instead)),
                         (total(table, plan), dearest, instead))

    def way(self, tree, ends, u, v):
        """The rows of a tree between two junctions."""
        met = nx.shortest_path(tree, u, v)
        return {ends[frozenset(pair)] for pair in zip(met, met[1:])}

    @tried
    @given(marked())
    def test_best(self, case):
        n, table, plan = case
        t, trees = star.Table(n, table), all_trees(n, table)
        t.plan = plan
        if plan not in trees:
            self.assertEqual(refusal(t.best), 9 if len(plan) != n - 1 else 10)
            return
        now = total(table, plan)
        saved = {tree: now - total(table, tree) for tree in trees
                 if len(set(plan) - set(tree)) == 1}
        most, found = max(saved.values(), default=0), t.best()
        self.assertEqual((found.total, found.least, found.only), (now, least(n, table), None))
        self.assertEqual((found.passed, found.exchange is None), (most <= 0, most <= 0))
        if found.exchange:
            self.exchanged(table, plan, trees, found.exchange, now)
            self.assertEqual(found.exchange.saving, most)
            first = min((set(tree) - set(plan)).pop() for tree in saved if saved[tree] == most)
            self.assertEqual(found.exchange.into, first)

    @tried
    @given(marked())
    def test_total_and_digs(self, case):
        n, table, plan = case
        t = star.Table(n, table)
        t.plan = plan
        self.assertEqual(t.total(), total(table, plan))
        if plan not in all_trees(n, table):
            self.assertEqual(refusal(t.digs, True), 9 if len(plan) != n - 1 else 10)
            return
        lines = ["%d %d %d %d\n" % (k, *table[k - 1]) for k in plan]
        self.assertEqual(t.digs(plan=True), "".join(lines) + "Total %d\n" % total(table, plan))

    @tried
    @given(rows(), st.lists(st.tuples(st.integers(0, 12), st.integers(0, 7), st.integers(0, 7),
                                      PRICES), max_size=12))
    def test_changes(self, case, changes):
        n, table = case
        t = star.Table(n, table)
        model, struck = {k: row for k, row in enumerate(table, 1)}, {}
        for row, u, v, price in changes:
            if row == 0:
                moved = t.merge()
                self.assertEqual(list(moved), sorted(model))
                model = {k: model[old] for k, old in enumerate(sorted(model), 1)}
                struck = {}
            elif row % 2 and row in model:
                t.strike(row)
                struck[row] = model.pop(row)
                self.assertEqual(refusal(t.strike, row), 18)
            elif row % 2 and row in struck:
                t.restore(row)
                model[row] = struck.pop(row)
                self.assertEqual((refusal(t.restore, row), row in t.plan), (27, False))
            elif row % 2:
                self.assertEqual(refusal(t.strike, row), 18)
            else:
                model[max(model, default=0) + 1] = (u, v, price)
                self.assertEqual(t.add(u, v, price), max(model))
                struck.pop(max(model), None)
        self.assertEqual({r.number: (r.left, r.right, r.price) for r in t.rows}, model)

    @tried
    @given(marked(), st.booleans())
    def test_round_trips(self, case, named):
        n, table, plan = case
        names = ["j%d" % k for k in range(1, n + 1)] if named else None
        t = star.Table(names or n, [(("j%d" % u, "j%d" % v) if named else (u, v)) + (price,)
                                    for u, v, price in table])
        t.plan = plan
        back = star.Table.from_networkx(t.to_networkx())
        self.assertEqual(sorted(back.junctions, key=str), sorted(t.junctions, key=str))
        self.assertEqual(self.edges(back), self.edges(t))
        text = star.Table.from_text(t.to_text())
        if named:
            self.assertEqual((text.n, self.edges(text)), (t.n, self.edges(t)))
        else:
            self.assertEqual(text, t)
        if table:
            self.assertEqual(self.edges(star.Table.from_csv(t.to_csv())), self.edges(t))

    @tried
    @given(marked(), st.lists(st.tuples(st.floats(-180, 180), st.floats(-90, 90)), min_size=7,
                              max_size=7, unique=True), st.booleans())
    def test_round_trips_of_places(self, case, places, cents):
        n, table, plan = case
        t = star.Table(["j%d" % k for k in range(1, n + 1)],
                       [("j%d" % u, "j%d" % v, price) for u, v, price in table])
        t.plan, t.unit = plan, Fraction(1, 100) if cents else Fraction(1)
        t._places = dict(enumerate(places[:n], 1))
        t._lines = {row.number: (t.places[row.left], (1.5, 2.5), t.places[row.right])
                    for row in t.rows if row.number % 2}
        t._lines.update({row.number: (t.places[row.left], t.places[row.right])
                         for row in t.rows if not row.number % 2})
        self.assertEqual(star.Table.from_geojson(t.to_geojson(), unit=t.unit), t)
        if pandas and table:
            self.assertEqual(self.edges(star.Table.from_pandas(t.to_pandas(), unit=t.unit)),
                             self.edges(t))

    def test_graphs(self):
        g = nx.MultiGraph()
        g.add_node("alone", pos=(1.5, 2))
        for price in (7.5, 7.25):
            g.add_edge("a", ("b", 1), price=price)
        self.assertRaises(star.Unfit, star.Table.from_networkx, g, unit=0.25)
        t = star.Table.from_networkx(g, unit=0.25, parallel="cheapest")
        self.assertEqual((t.junctions, [r.price for r in t.rows]), (("alone", "a", ("b", 1)), [29]))
        self.assertEqual(t.places, {"alone": (1.5, 2)})
        self.assertEqual(t.to_networkx().edges["a", ("b", 1)]["price"], 7.25)
        self.assertEqual(star.Table.from_networkx(t.to_networkx(), unit=0.25), t)
        self.assertRaises(ValueError, star.Table.from_networkx, nx.DiGraph([(1, 2)]))
        self.assertRaises(star.Unfit, star.Table.from_networkx, nx.Graph([(1, 2)]))
        many = nx.path_graph(256)
        nx.set_edge_attributes(many, 1, "price")
        self.assertEqual(refusal(star.Table.from_networkx, many), 1)

    def edges(self, t):
        return {(frozenset((r.left, r.right)), r.price, r.marked) for r in t.rows}


if __name__ == "__main__":
    unittest.main()
