"""The package by itself: examples, forms, refusals, limits, and the lines of docs/PYTHON.md."""
import contextlib
import doctest
import glob
import importlib
import io
import json
import os
import pickle
import subprocess
import sys
import tempfile
import threading
import unittest
from decimal import Decimal

import star
from star import __main__ as command

HERE = os.path.dirname(os.path.abspath(__file__))
DOCS = os.path.join(HERE, "..", "..", "docs", "PYTHON.md")
YARD = [(1, 2, 5), (2, 3, 3), (3, 4, 5), (1, 4, 4), (1, 3, 6)]
STREETS = {"type": "FeatureCollection", "features": [
    {"type": "Feature", "properties": {"name": "mill"},
     "geometry": {"type": "Point", "coordinates": [13.104, 52.5]}},
    {"type": "Feature", "properties": {"price": 12.35, "marked": True},
     "geometry": {"type": "LineString",
                  "coordinates": [[13.104, 52.5], [13.11, 52.4], [13.12, 52.5]]}},
    {"type": "Feature", "properties": {"price": 7},
     "geometry": {"type": "LineString",
                  "coordinates": [[13.12, 52.5], [13.2, 52.7], [13.1, 52.6]]}}]}


def load_tests(loader, tests, pattern):
    """The examples of every module, and of the page."""
    for path in glob.glob(os.path.join(star.__path__[0], "[!_]*.py")):
        module = importlib.import_module("star." + os.path.basename(path)[:-3])
        tests.addTests(doctest.DocTestSuite(module, extraglobs={"Table": star.Table}))
    tests.addTests(doctest.DocTestSuite(star))
    with open(DOCS, encoding="utf-8") as file:
        tests.addTest(doctest.DocTestCase(page_test(file.read())))
    return tests


def page_test(text):
    """The lines of the page's blocks ```pycon, at their places, as one test."""
    inside, lines = False, []
    for line in text.split("\n"):
        inside = line == "```pycon" or inside and line != "```"
        lines.append(line if inside and line != "```pycon" else "")
    return doctest.DocTestParser().get_doctest("\n".join(lines), {}, "PYTHON.md", DOCS, 0)


class Page(unittest.TestCase):
    def test_broken_lines(self):
        """A line of the page that is wrong is found, and every line that opens with >>> is run."""
        with open(DOCS, encoding="utf-8") as file:
            text = file.read()
        found = page_test(text).examples
        self.assertEqual(len(found), text.count("\n>>> "))
        for old, new in ((">>> yard.build()", ">>> yard.builds()"), ("saving=1)", "saving=2)"),
                         ("(False, 13, 12)", "(False, 13, 11)"), ("Total 12", "Total 13")):
            self.assertIn(old, text)
            runner = doctest.DocTestRunner(verbose=False)
            broken = runner.run(page_test(text.replace(old, new)), out=lambda said: None)
            self.assertGreater(broken.failed, 0, old)


class Refusals(unittest.TestCase):
    def refused(self, number, place, call, *words):
        with self.assertRaises(star.Refused) as caught:
            call(*words)
        self.assertEqual((caught.exception.number, caught.exception.place), (number, place))
        return caught.exception

    def test_by_number(self):
        self.refused(1, 0, star.Table, 0)
        many = self.refused(1, 0, star.Table, range(300))
        self.assertIn("300 junctions", many.words)
        self.assertIn("districts", many.words)
        for text in ("", "junctions 0\n", "junctions 256\n", "junctions 4294967295\n"):
            self.refused(1, 0, star.Table.from_text, text)
        self.refused(2, 6 * 1024, star.Table.from_text, "1 2 5\n" * 1025)
        for number, place, text in ((20, 6, "1 2 5\n1 2\n"), (21, 2, "1 300 5\n"), (22, 4, "1 2 x"),
                                    (23, 6, "1 2 5 50"), (24, 6, "1 2 5\njunctions x\n"),
                                    (25, 8, "1 2 5\n1 mill 3\n"), (12, 1 << 24, "#" * (1 << 25))):
            self.refused(number, place, star.Table.from_text, text)
        self.refused(26, 12 * 127 + 5, star.Table.from_text,
                     "".join("a%03d b%03d 5\n" % (k, k) for k in range(128)))
        self.refused(2, 0, star.Table, 4, YARD * 300)
        self.refused(4, 3, star.Table(3, YARD[:2] + [(3, 4, 1)]).build)
        self.refused(4, 2, star.Table(3, [(1, 2, 1), (300, 2, 1)]).build)
        self.refused(4, 1, star.Table(2, [(1, 2 - 256, 1)]).build)
        self.refused(15, 2, star.Table(2, [(1, 2, 5), (2, 1, 3)]).build)
        self.refused(9, 0, star.Table(4, YARD).check)
        ring = star.Table(4, YARD)
        ring.plan = 1, 2, 5
        self.refused(10, 4, ring.check)
        self.refused(11, 0, star.Table(5, YARD).build)
        self.refused(7, 0, star.Table(4, YARD).quote, 6, 1)
        self.refused(14, 0, star.Table(4, YARD).districts, [2, 4])
        self.refused(18, 0, star.Table(4, YARD).strike, 6)
        self.refused(27, 0, star.Table(4, YARD).restore, 5)
        self.refused(9, 0, star.Table(4, YARD).detours)
        self.refused(10, 4, ring.best)
        self.refused(10, 4, ring.digs, True)
        self.refused(15, 2, star.Table(2, [(1, 2, 5), (2, 1, 3)]).groups)
        self.refused(4, 1, star.Table(2, [(1, 1, 5)]).total)
        self.refused(19, 0, star.Table(4, YARD).outlets, 1, 4)

    def test_numbers_that_words_do_not_hold(self):
        t = star.Table(4, YARD)
        self.refused(7, 0, t.quote, 2**32 + 4, 1)
        self.refused(7, 0, t.breaking, -1)
        self.refused(18, 0, t.strike, 2**32 + 1)
        self.refused(7, 0, t.outlets, 2**32 + 1, 2)
        for price in (2**31, -2**31 - 1, 2**32 + 5):
            self.assertRaises(ValueError, t.quote, 1, price)
            self.assertRaises(ValueError, t.add, 1, 2, price)
            self.assertRaises(ValueError, star.Table, 2, [(1, 2, price)])
        self.assertRaises(TypeError, t.quote, 1, 2.5)
        self.assertRaises(TypeError, star.Table, 2, [(1, 2, 2.5)])

    def test_refused_calls_change_nothing(self):
        t = star.Table(4, YARD)
        t.plan = 1, 2
        before = t.copy()
        self.assertRaises(star.Refused, setattr, t, "plan", (1, 9))
        self.assertRaises(star.Refused, t.outlets, 1, 4)
        self.assertRaises(star.Refused, t.mark, 9)
        self.assertEqual(t, before)

    def test_exceptions_are_kept(self):
        with self.assertRaises(star.Refused) as caught:
            star.Table(5, YARD).build()
        again = pickle.loads(pickle.dumps(caught.exception))
        self.assertEqual((again.number, str(again)), (11, str(caught.exception)))
        self.assertIsInstance(again, ValueError)

    def test_districts_with_struck_rows(self):
        t = star.Table(4, YARD)
        t.strike(5)
        for last in (4, 5):
            self.assertEqual(t.districts([2, last]).forests, ((1, 2), (3, 4)))
        for last in (3, 6, 2**32 + 5):
            self.refused(14, 0, t.districts, [2, last])

    def test_full(self):
        pairs = [(u, v, 1) for u in range(1, 60) for v in range(u + 1, 60)][:1024]
        t = star.Table(59, pairs)
        self.refused(17, 0, t.add, 1, 2, 1)
        t.strike(3)
        self.assertEqual(t.add(58, 59, 1), 1024)
        self.assertEqual(len(t), 1024)


class Version(unittest.TestCase):
    def test_one_version(self):
        for name, before, after in (("python/pyproject.toml", 'version = "', '"'),
                                    ("debian/changelog", "star (", ")")):
            with open(os.path.join(HERE, "..", "..", *name.split("/")), encoding="utf-8") as file:
                text = file.read()
            self.assertEqual(text.split(before)[1].split(after)[0], star.__version__)


class Forms(unittest.TestCase):
    def test_answers_do_not_change(self):
        t = star.Table(4, YARD)
        which = t.which([1, 2, 4], [1, 2, 3])
        for answer in (t.build(), t.check(), t.mend(), t.quote(1, 2), which, t.groups(),
                       t.detours(), t.best()):
            self.assertRaises(AttributeError, setattr, answer, "total", 1)
            self.assertEqual(pickle.loads(pickle.dumps(answer)), answer)

    def test_names(self):
        t = star.Table(["a", ("b", 1), 3], [("a", 3, 4), (3, ("b", 1), 5)])
        t.build()
        self.assertEqual(t.path("a", ("b", 1)), (1, 2))
        self.assertEqual(t.rows[1].right, ("b", 1))
        self.assertRaises(KeyError, t.path, "a", "c")
        self.assertRaises(ValueError, star.Table, ["a", "a"])

    def test_exact_prices(self):
        wrong = (0.1 + 0.2, "1/3", Decimal("0.001"), 1e-9, float("nan"), float("inf"), "x", None)
        for price in wrong:
            self.assertRaises(star.Unfit, star.Table.from_rows, [(1, 2, price)], unit=0.01)
        for price, units in ((12.35, 1235), ("12.30", 1230), (Decimal("-0.07"), -7), (1e3, 100000),
                             (1.15, 115), (0.29, 29)):
            t = star.Table.from_rows([(1, 2, price)], unit=0.01)
            self.assertEqual(t.rows[0].price, units)
        self.assertRaises(star.Unfit, star.Table.from_rows, [(1, 2, 21474836.48)], unit=0.01)
        rounded = star.Table.from_rows([(1, 2, 1.255), (2, 3, 2)], unit=0.01, rounding="nearest")
        self.assertEqual([r.price for r in rounded.rows], [126, 200])
        self.assertIn("row 1: the price 1.255 was taken as 1.26", str(rounded.report))

    def test_parallel_rows(self):
        rows = [("a", "b", 5), ("b", "a", 3, True), ("a", "b", 4), ("b", "c", 1), ("c", "c", 9)]
        for how in ({}, {"parallel": "cheapest"}, {"loops": "drop"}):
            self.assertRaises(star.Unfit, star.Table.from_rows, rows, **how)
        t = star.Table.from_rows(rows, parallel="cheapest", loops="drop")
        self.assertEqual([(r.left, r.price, r.marked) for r in t.rows],
                         [("b", 3, True), ("b", 1, False)])
        self.assertEqual([(d.place, d.kept) for d in t.report.dropped], [(1, 2), (3, 2), (5, 0)])
        self.assertEqual(t.junctions, ("a", "b", "c"))
        self.assertRaises(ValueError, star.Table.from_rows, rows, parallel="dearest")

    def test_csv(self):
        text = "left;right;price;marked\nmill;lock;7.50;x\n\"a;b\";mill;3;\n"
        t = star.Table.from_csv(text, unit=0.01)
        self.assertEqual([tuple(r) for r in t.rows], [(1, "mill", "lock", 750, True),
                                                      (2, "a;b", "mill", 300, False)])
        self.assertEqual(star.Table.from_csv(t.to_csv(), unit=0.01), t)
        numbered = star.Table(4, YARD)
        numbered.build()
        self.assertEqual(star.Table.from_csv(numbered.to_csv()), numbered)
        by_the_core = star.Table.from_csv("# streets\nmill;lock;7;yes\nstruck;lock;quay;3\n")
        self.assertEqual((by_the_core.junctions, by_the_core.plan, len(by_the_core)),
                         (("mill", "lock", "quay"), (1,), 1))
        other = star.Table.from_csv("left,right,price,length\n1001,1002,7,1\n")
        self.assertEqual((other.junctions, other.plan), (("1001", "1002"), ()))
        for wrong in ("left,right\n1,2\n", "left,right,price\n1,2\n", "left,right,price\n1,2,3,4\n",
                      "left,right,price,marked\n1,2,3,maybe\n", "left,right,price\n1,2,3.5\n"):
            self.assertRaises(star.Unfit, star.Table.from_csv, wrong)

    def test_geojson(self):
        t = star.Table.from_geojson(json.dumps(STREETS), unit=0.01)
        self.assertEqual(t.junctions, ("mill", (13.12, 52.5), (13.1, 52.6)))
        self.assertEqual(t.places["mill"], (13.104, 52.5))
        self.assertEqual([(r.price, r.marked) for r in t.rows], [(1235, True), (700, False)])
        again = star.Table.from_geojson(t.to_geojson(), unit=0.01)
        self.assertEqual(again, t)
        line = json.loads(t.to_geojson())["features"][3]["geometry"]["coordinates"]
        self.assertEqual(line, [[13.104, 52.5], [13.11, 52.4], [13.12, 52.5]])
        t.add("mill", (13.1, 52.6), 1)
        t.strike(1)
        t.merge()
        moved = json.loads(t.to_geojson())["features"]
        self.assertEqual(moved[3]["geometry"]["coordinates"],
                         [[13.12, 52.5], [13.2, 52.7], [13.1, 52.6]])
        self.assertEqual(len(moved), 5)
        self.assertRaises(ValueError, star.Table(4, YARD).to_geojson)
        for k, change in ((1, {"type": "Polygon", "coordinates": []}), (2, None)):
            wrong = json.loads(json.dumps(STREETS))
            wrong["features"][k]["geometry"] = change
            with self.assertRaises(star.Unfit) as caught:
                star.Table.from_geojson(json.dumps(wrong), unit=0.01)
            self.assertEqual(caught.exception.place, k)
        with self.assertRaises(star.Unfit) as caught:
            star.Table.from_geojson(json.dumps(STREETS))
        self.assertEqual(caught.exception.place, 1)

    def test_pandas(self):
        try:
            import pandas
        except ImportError:
            self.skipTest("pandas is not installed")
        t = star.Table.from_rows([("a", "b", 1.5), ("b", "c", 2)], unit=0.5)
        self.assertEqual(star.Table.from_pandas(t.to_pandas(), unit=0.5), t)
        self.assertEqual(list(t.to_pandas()["price"]), [1.5, 2])
        self.assertIsInstance(t.to_pandas(), pandas.DataFrame)

    def test_files(self):
        t = star.Table(4, YARD)
        t.plan = 1, 2, 4
        t.strike(3)
        with tempfile.TemporaryDirectory() as folder:
            for name in ("yard.txt", "yard"):
                path = os.path.join(folder, name)
                t.write(path)
                self.assertEqual(star.Table.read(path), t)
            path = os.path.join(folder, "yard.csv")
            t.write(path)
            self.assertEqual(star.Table.read(path).plan, (1, 2, 3))
            path = os.path.join(folder, "streets.geojson")
            streets = star.Table.from_geojson(json.dumps(STREETS), unit=0.01)
            streets.write(path)
            self.assertEqual(star.Table.read(path, unit="0.01"), streets)
        stp = star.Table.read(os.path.join(HERE, "..", "..", "console", "examples", "street.stp"))
        self.assertEqual((stp.plan, stp.n > 1), ((), True))
        for text, place, told in ((b"1 2 5\n# a comment\n1 2\n", 18, "line 3: '1 2'"),
                                  (b"1 2 5\r2 3 4\r\n1 2\r", 13, "line 3: '1 2'"),
                                  (b"\xef\xbb\xbf1 2\n", 3, "line 1: "),
                                  (b"1 2 5\n\xff 2", 6, "line 2: '\\\\xff 2'")):
            with self.assertRaises(star.Refused) as caught:
                star.Table.from_text(text)
            self.assertEqual(caught.exception.place, place)
            self.assertIn(told, str(caught.exception))

    def test_named_tables(self):
        text = "mill;\"lock gate\";5;x\nlock gate;quay;3\nstruck;quay;mill;9\njunctions 5\n"
        t = star.Table.from_text(text)
        self.assertEqual(t.junctions, ("mill", "lock gate", "quay", 4, 5))
        self.assertEqual([tuple(row) for row in t.rows],
                         [(1, "mill", "lock gate", 5, True), (2, "lock gate", "quay", 3, False)])
        self.assertEqual(t.to_text(), "left;right;price;mark\njunctions;5\nmill;lock gate;5;1\n"
                         "lock gate;quay;3;0\nstruck;quay;mill;9;0\n")
        self.assertEqual(star.Table.from_text(t.to_text()), t)
        t.restore(3)
        self.assertEqual((t.rows[2].right, t.add("quay", 4, 2), t.n), ("mill", 4, 5))
        self.assertEqual(t.groups().groups, (("mill", "lock gate"), ("quay",), (4,), (5,)))
        raw = star.Table.from_text(b"a\xff b 5\n")
        self.assertEqual((star.Table.from_text(raw.to_text()), raw.to_text().split("\n")[1]),
                         (raw, "a\udcff b 5 0"))
        for names in (["1", "2"], ["a", 'b"'], ["a", ("b", 1)], ["a", 7], ["#a", "b"]):
            odd = star.Table(names, [(names[0], names[1], 5)])
            self.assertEqual(odd.to_text(), "junctions 2\n1 2 5 0\n")
        with self.assertRaises(star.Refused) as caught:
            star.Table(2, [(1, 2, 5), (1, 300, 5)]).to_text()
        self.assertEqual((caught.exception.number, caught.exception.place), (4, 2))
        self.assertEqual(raw.junctions, ("a\udcff", "b"))
        few = star.Table.from_text("a b 5\nb c 5\njunctions 2\n")
        self.assertEqual(few.junctions, ("a", "b"))
        with self.assertRaises(star.Refused) as caught:
            few.build()
        self.assertEqual((caught.exception.number, caught.exception.place), (4, 2))

    def test_picture(self):
        t = star.Table(["<a>", "b", "c"], [("<a>", "b", 5, True), ("b", "c", 7)])
        picture = t._repr_svg_()
        for piece in ("<svg ", "&lt;a&gt;", ">7</text>", 'stroke-width="4"'):
            self.assertIn(piece, picture)
        self.assertEqual(picture.count("<line "), 2)
        import xml.dom.minidom
        xml.dom.minidom.parseString(picture)

    def test_command(self):
        examples = os.path.join(HERE, "..", "..", "console", "examples")
        for name, status, said in (("yard.txt", 0, "total 12"), ("yard-dear.txt", 1, "saves 1"),
                                   ("street.stp", 3, "no plan"), ("none.txt", 3, "No such file")):
            ran = subprocess.run([sys.executable, "-B", "-m", "star", "check",
                                  os.path.join(examples, name)], capture_output=True, text=True)
            self.assertEqual(ran.returncode, status)
            self.assertIn(said, ran.stdout + ran.stderr)
        ran = subprocess.run([sys.executable, "-B", "-m", "star"], capture_output=True)
        self.assertEqual(ran.returncode, 4)
        for text, told in (("mill quay 5 1\nquay lock 3 1\nlock mill 4\n",
                            "take out row 1 (mill to quay), put in row 3 (lock to mill): saves 1"),
                           ("mill quay 5 1\nquay lock 3\n", "refused 9: "),
                           ("mill quay 5 1\nlock pier 3 1\nmill lock 2\nquay mill 7 1\n",
                            "earlier row: row 4 (quay to mill)"),
                           ("mill quay 5 1\nlock pier 3 1\nmill lock 2\nquay lock 7\n"
                            "pier dock 1 1\nlock dock 1 1\n", "junctions: lock")):
            self.assertIn(told, self.checked(text))

    def checked(self, text):
        """What the command prints of a file."""
        with tempfile.TemporaryDirectory() as folder:
            path, said = os.path.join(folder, "table.txt"), io.StringIO()
            with open(path, "w") as file:
                file.write(text)
            with contextlib.redirect_stdout(said):
                command.main(["check", path])
        return said.getvalue()

    def test_threads(self):
        found = []

        def work():
            t = star.Table(4, YARD)
            found.append({(t.build().total, t.check().only) for _ in range(200)})
        threads = [threading.Thread(target=work) for _ in range(8)]
        for thread in threads:
            thread.start()
        for thread in threads:
            thread.join()
        self.assertEqual(found, [{(12, False)}] * 8)


if __name__ == "__main__":
    unittest.main()
