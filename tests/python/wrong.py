"""What users get wrong, and threads: clear words, never a traceback at the command line, never an
end of the interpreter, and a table that is as it was."""
import json
import os
import subprocess
import sys
import tempfile
import threading
import unittest
from decimal import Decimal

import star
from star import _library as lib
from star import content
from star.__main__ import main

HERE = os.path.dirname(os.path.abspath(__file__))
ROOT = os.path.join(HERE, "..", "..")
CONSOLE = os.path.join(ROOT, "target", "c", "star")
YARD = [(1, 2, 5), (2, 3, 3), (3, 4, 5), (1, 4, 4), (1, 3, 6)]


class Like:
    """A number of numpy's kind: no int, but one that counts as a whole number."""

    def __init__(self, value):
        self.value = value

    def __index__(self):
        return self.value


def whole_numbers():
    """What makes whole numbers that are no int: numpy's, where it is installed."""
    try:
        import numpy
    except ImportError:
        return [Like]
    return [Like, numpy.int32, numpy.int64, numpy.uint64]


class Types(unittest.TestCase):
    def says(self, words, error, call, *given):
        with self.assertRaises(error) as caught:
            call(*given)
        self.assertIn(words, str(caught.exception))

    def test_no_whole_number(self):
        t = star.Table(4, YARD)
        before = t.copy()
        for wrong in (2.5, 4.0, "4", None, True, Decimal(4), [4], 4j):
            told = "is a whole number, not %r" % (wrong,)
            self.says("a price " + told, TypeError, t.quote, 1, wrong)
            self.says("a price " + told, TypeError, t.add, 1, 3, wrong)
            self.says("row 2: a price " + told, TypeError, star.Table, 4, [YARD[0], (2, 3, wrong)])
            self.says("a junction " + told, TypeError, t.path, wrong, 1)
            self.says("row 1: a junction " + told, TypeError, star.Table, 4, [(1, wrong, 5)])
            for call in (t.breaking, t.strike, t.mark, t.restore, lambda w: t.quote(w, 1),
                         lambda w: t.districts([w]), lambda w: t.which([w], [1]),
                         lambda w: setattr(t, "plan", [w])):
                self.says("a row " + told, TypeError, call, wrong)
            self.says("a number of rows " + told, TypeError, t.outlets, 1, wrong)
        for wrong in (2.5, None, True, 4j):
            self.says("the number of junctions is a whole number", TypeError, star.Table, wrong)
        for wrong in ("yard.txt", b"yard"):
            self.says("Table.read reads a file", TypeError, star.Table, wrong)
        self.says("a plan is a list of rows, not 3", TypeError, setattr, t, "plan", 3)
        self.says("str or bytes, not 7", TypeError, star.Table.from_text, 7)
        self.assertEqual(t, before)

    def test_whole_numbers_that_are_no_int(self):
        for kind in whole_numbers():
            t = star.Table(kind(4), [tuple(map(kind, row)) for row in YARD])
            t.plan = kind(1), kind(2), kind(4)
            self.assertEqual((t, t.quote(kind(4), kind(9))), (t.copy(), (12, 13)))
            self.assertEqual(t.path(kind(1), kind(2)), (1,))
            self.assertEqual(t.outlets(kind(1), kind(3)).rows, (1, 4, 5))
            self.assertEqual(t.districts([kind(2), kind(5)]).forests, ((1, 2), (3, 4)))
            t.mark(kind(5))
            t.strike(kind(5))
            self.assertEqual((t.add(kind(1), kind(3), kind(7)), t.rows[-1].price), (5, 7))
            if kind is not Like:
                rows = [tuple(map(kind, row)) for row in YARD]
                self.assertEqual(star.Table.from_rows(rows).build().total, 12)

    def test_numbers_that_no_table_has(self):
        for n in (-1, 0, 256, 2**32 + 4, -2**70):
            self.says("refused 1", star.Refused, star.Table, n)
        self.says("1025 rows were found", star.Refused, star.Table, 2, [(1, 2, 5)] * 1025)
        self.assertEqual(len(star.Table(2, [(1, 2, 5)] * 1024)), 1024)
        self.says("row 2 has 2 values", ValueError, star.Table, 4, [(1, 2, 5), (2, 3)])
        self.says("row 1", TypeError, star.Table, 4, [7])
        self.says("row 1: no junction is named 'c'", KeyError, star.Table, "ab".split() + ["b"],
                  [("b", "c", 1)])

    def test_refused_before_anything_is_changed(self):
        t = star.Table(4, YARD)
        t.plan = 1, 2
        before = t.copy()
        for call, rows in ((t.mark, (3, 9)), (t.strike, (1, 2, 9)), (t.strike, (1, 1)),
                           (t.mark, (4, -1)), (t.strike, (3, 2**32 + 3))):
            self.assertRaises(star.Refused, call, *rows)
        self.assertRaises(TypeError, t.strike, 1, 2.0)
        self.assertEqual(t, before)

    def test_rows_of_street_data(self):
        for wrong, words in (((1, 2), "is not left, right, price"), (7, "is not left, right"),
                             ((None, 2, 5), "is missing"), ((1, float("nan"), 5), "is missing"),
                             (([1], 2, 5), "[1] is no junction"), ((1, 2, True), "True is not a"),
                             ((1, 2, "1e99999999"), "is not a price"),
                             ((1, 2, "9" * 200), "is not a price"),
                             ((1, 2, 5, float("nan")), "its mark is nan"),
                             ((1, 2, 5, "no"), "its mark is 'no'")):
            with self.assertRaises(star.Unfit) as caught:
                star.Table.from_rows([("a", "b", 1), wrong])
            self.assertEqual(caught.exception.place, 2)
            self.assertIn(words, str(caught.exception))
        marked = star.Table.from_rows([(1, 2, 5, 1), (2, 3, 5, None), (3, 4, 5, False)])
        self.assertEqual(marked.plan, (1,))

    def test_texts_that_are_none(self):
        line = {"type": "LineString", "coordinates": [[1, 2], [3, 4]]}
        feature = {"type": "Feature", "properties": {"price": 7}, "geometry": line}
        named = [{"type": "Feature", "properties": {"name": "mill"},
                  "geometry": {"type": "Point", "coordinates": at}} for at in ([1, 2], [3, 4])]
        wrong = ["", "{", "[1]", "7", "null", '"x"', '{"features": 7}', '{"features": [7]}',
                 "[" * 100000, json.dumps({"features": [feature] + named})]
        for change in ({"geometry": 7}, {"geometry": [1]}, {"properties": [1]}):
            wrong.append(json.dumps({"features": [dict(feature, **change)]}))
        for points in (7, [7, 8], [[1], [2]], [["a", "b"], ["c", "d"]], [[1, True], [3, 4]],
                       [[1, float("nan")], [3, 4]], [[1, 10**400], [3, 4]], [[1, 2], None]):
            geometry = dict(line, coordinates=points)
            wrong.append(json.dumps({"features": [dict(feature, geometry=geometry)]}))
        for text in wrong:
            self.assertRaises(star.Unfit, star.Table.from_geojson, text)
        for text in ("", "\0", "left,right,price\n" + "1,2," + "x" * 200000, "left,right,price\n1"):
            self.assertRaises(star.Unfit, star.Table.from_csv, text)
        self.assertRaises(star.Refused, star.Table.from_text, "1 2 \ud800\n")


class CommandLine(unittest.TestCase):
    def ran(self, *words, **how):
        how = dict({"stdout": subprocess.PIPE}, **how)
        done = subprocess.run([sys.executable, "-B", "-m", "star", *words], stderr=subprocess.PIPE,
                              **how)
        self.assertNotIn(b"Traceback", done.stderr)
        return done.returncode, (done.stdout or b"").decode() + done.stderr.decode()

    def test_usage(self):
        for words in (["--help"], ["-h"], ["check", "--help"]):
            status, said = self.ran(*words)
            self.assertEqual((status, said.split("\n")[0][:30]),
                             (0, "usage: python3 -m star check F"))
        self.assertEqual(self.ran("--version"), (0, "star %s\n" % star.__version__))
        for words, told in (([], "usage:"), (["chek", "x"], "'chek' is no command"),
                            (["check"], "check takes one file"),
                            (["check", "a", "b"], "check takes one file"),
                            (["check", "--fast"], "check takes one file")):
            status, said = self.ran(*words)
            self.assertEqual(status, 4, words)
            self.assertIn(told, said)

    def test_files_that_are_none(self):
        with tempfile.TemporaryDirectory() as folder:
            def file(name, data):
                with open(os.path.join(folder, name), "wb") as out:
                    out.write(data)
            binary = bytes(range(256)) * 300
            for name in ("binary", "binary.csv", "binary.geojson"):
                file(name, binary)
            file("price.csv", b"left,right,price\n1,2,2.5\n")
            file("deep.json", b"[" * 100000)
            file("words.txt", b"1 2 5 1\n2 three 4 0\n")
            file("rows.txt", b"1 2 5 1\n" * 1025)
            file("bytes.txt", b"#" * ((1 << 24) + 1))
            for name, status, told in (
                    ("none.txt", 3, "none.txt: No such file"), (".", 3, "Is a directory"),
                    ("binary", 3, "a line is not a trench: two junctions, a price, and a mark or none; line 1"),
                    ("binary.csv", 3, "UTF-8"),
                    ("binary.geojson", 3, "UTF-8"), ("price.csv", 3, "row 1: the price 2.5 is not"),
                    ("deep.json", 3, "deep"), ("words.txt", 3, "line 2: '2 three 4 0'"),
                    ("rows.txt", 2, "refused 2"), ("bytes.txt", 3, "longer than 16777216 bytes")):
                found, said = self.ran("check", os.path.join(folder, name))
                self.assertEqual((found, said.count("\n")), (status, 1), said)
                self.assertIn(told, said)
            name = os.fsencode(folder) + b"/\xff\xfe"
            self.assertEqual(self.ran("check", name)[0], 3)
            with open(name, "wb") as out:
                out.write(b"1 2 5 0\n")
            self.assertEqual(self.ran("check", name)[0], 2)

    def test_answer_that_cannot_be_written(self):
        yard = os.path.join(ROOT, "console", "examples", "yard.txt")
        read, write = os.pipe()
        os.close(read)
        status, said = self.ran("check", yard, stdout=write)
        os.close(write)
        self.assertEqual(status, 5)
        self.assertIn("the answer cannot be written: Broken pipe", said)

    def test_status_of_the_console(self):
        if not os.path.exists(CONSOLE):
            self.skipTest("the console is not built")
        folders = [os.path.join(ROOT, *names) for names in (("tests", "console"),
                                                            ("console", "examples"))]
        paths = [os.path.join(folder, name) for folder in folders for name in os.listdir(folder)
                 if name.endswith((".txt", ".stp"))]
        self.assertGreater(len(paths), 100)
        found = {}
        with open(os.devnull, "w") as quiet:
            kept, sys.stdout, sys.stderr = (sys.stdout, sys.stderr), quiet, quiet
            try:
                for path in paths:
                    found[path] = main(["check", path])
            finally:
                sys.stdout, sys.stderr = kept
        for path in paths:
            console = subprocess.run([CONSOLE, "check", path], capture_output=True)
            self.assertEqual(found[path], console.returncode, path)

    def test_library_that_is_none(self):
        for named, told in (("none.so", "is not loaded"), ("libc.so.6", "of another version")):
            done = subprocess.run([sys.executable, "-B", "-c", "import star"], capture_output=True,
                                  env=dict(os.environ, STAR_LIBRARY=named), text=True)
            self.assertEqual((done.returncode, "ImportError" in done.stderr), (1, True))
            self.assertIn(told, done.stderr)


class Watched:
    """A lock that knows whether it is held by this thread."""

    def __init__(self):
        self.lock, self.held = content.RLock(), threading.local()

    def __enter__(self):
        self.lock.__enter__()
        self.held.now = True

    def __exit__(self, *fault):
        self.held.now = False
        self.lock.__exit__(*fault)


class Threads(unittest.TestCase):
    CALLS = {
        "check": lambda t: t.check(), "other": lambda t: t.other(), "build": lambda t: t.build(),
        "which": lambda t: t.which([1, 2, 3], [1, 2, 4]), "paths": lambda t: t.path(1, 3),
        "quote": lambda t: t.quote(4, 9), "breaking": lambda t: t.breaking(4),
        "digs": lambda t: t.digs(), "plan_digs": lambda t: t.digs(plan=True),
        "mend": lambda t: t.mend(),
        "outlets": lambda t: t.outlets(1, 2), "districts": lambda t: t.districts([2, 5]),
        "add": lambda t: t.add(2, 4, 9), "strike": lambda t: t.strike(6),
        "restore": lambda t: t.restore(6), "total": lambda t: t.total(),
        "best": lambda t: t.best(), "detours": lambda t: t.detours(),
        "groups": lambda t: t.groups(),
        "merge": lambda t: t.merge(), "mark": lambda t: t.mark(1),
        "write_table": lambda t: t.to_text()}

    def test_every_call_holds_the_lock(self):
        """A call of the library is made by the one thread that holds the table's lock."""
        t = star.Table(4, YARD)
        t.plan = 1, 2, 4
        t._lock, seen = Watched(), {}
        for name, call in self.CALLS.items():
            own = getattr(lib, name)

            def watched(*words, name=name, own=own):
                seen[name] = getattr(t._lock.held, "now", False)
                return own(*words)
            setattr(lib, name, watched)
            try:
                call(t)
            finally:
                setattr(lib, name, own)
        self.assertEqual(seen, dict.fromkeys(self.CALLS, True))
        functions = {name for name, value in vars(lib).items() if hasattr(value, "argtypes")}
        self.assertEqual(functions - set(self.CALLS), {"version", "refusal_text", "init", "read",
                                                       "read_table", "read_file", "line_of"})

    def test_one_table_from_several_threads(self):
        """Each answer is a whole one, whatever the others do."""
        t, wrong = star.Table(4, YARD), []
        t.plan = 1, 2, 4

        def build():
            for _ in range(300):
                plan = t.build()
                if (plan.total, plan.rows) != (12, (1, 2, 4)):
                    wrong.append(plan)

        def outlets():
            for _ in range(300):
                plan = t.outlets(1, 3)
                if (plan.total, plan.rows) != (15, (1, 4, 5)):
                    wrong.append(plan)

        def check():
            for _ in range(300):
                if t.check()[:3] not in ((True, 12, 12), (False, 15, 12)):
                    wrong.append(t.check())
        threads = [threading.Thread(target=work) for work in (build, outlets, check) * 2]
        for thread in threads:
            thread.start()
        for thread in threads:
            thread.join()
        self.assertEqual(wrong, [])


if __name__ == "__main__":
    unittest.main()
