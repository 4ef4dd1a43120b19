"""Tests of the console's pictures: what stands in them, that nothing is printed over, and that plans of one network lie alike.
usage: picture.py STAR   Ends in one line 'N passed, M failed'."""
import os, random, subprocess, sys, tempfile
import xml.etree.ElementTree as tree

STAR = sys.argv[1:]
SVG = "{http://www.w3.org/2000/svg}"
counts = [0, 0]


def check(name, holds):
    counts[0 if holds else 1] += 1
    if not holds:
        print("picture", name, "failed")


def run(command, rows, n, work):
    path = os.path.join(work, "table.txt")
    with open(path, "w") as out:
        out.write("junctions %d\n" % n + "".join("%d %d %d %d\n" % row for row in rows))
    return subprocess.run(STAR + [command, path], capture_output=True, text=True)


class Picture:
    """The parts of an SVG text, with their numbers."""

    def __init__(self, text):
        self.text = text
        root = tree.fromstring(text)
        parts = list(root)
        number = lambda part, key: float(part.get(key))
        self.size = number(root, "width"), number(root, "height")
        self.circles = [(number(c, "cx"), number(c, "cy"), number(c, "r")) for c in parts if c.tag == SVG + "circle"]
        self.trenches = [(p.find(SVG + "title").text, p.get("class"), p.get("d")) for p in parts if p.find(SVG + "title") is not None]
        self.grounds = [tuple(number(r, key) for key in ("x", "y", "width", "height")) for r in parts if r.get("class") == "ground"]
        self.labels = [t.text for t in parts if t.tag == SVG + "text" and t.get("class").startswith("label")]
        self.light = [t.get("class") == "label other-label" for t in parts if t.tag == SVG + "text" and t.get("class").startswith("label")]
        self.verdict = " ".join(t.text for t in parts if t.get("class") == "verdict")
        last = max([k for k, p in enumerate(parts) if p.find(SVG + "title") is not None], default=-1)
        first = min([k for k, p in enumerate(parts) if p.get("class") == "ground"], default=len(parts))
        self.labels_above = last < first

    def points(self, d, count):
        """Points of a trench, from one end to the other."""
        x0, y0, x1, y1, x2, y2 = (float(w) for w in d.replace("M", " ").replace("Q", " ").split())
        for k in range(count + 1):
            b = k / count
            a = 1 - b
            yield a * a * x0 + 2 * a * b * x1 + b * b * x2, a * a * y0 + 2 * a * b * y1 + b * b * y2

    def middle(self, d):
        return list(self.points(d, 2))[1]

    def over_junctions(self):
        """Trenches that run over a junction that is not their end."""
        return [title for title, look, d in self.trenches
                for v, (x, y, r) in enumerate(self.circles) if str(v + 1) not in title.split(", ")[0].split(": ")[1].split("-")
                for px, py in self.points(d, 60) if (px - x) ** 2 + (py - y) ** 2 < r * r]

    def over_heavy(self):
        """Labels of light trenches that cover a part of a heavy one."""
        cells = {}
        for k, (x, y, w, h) in enumerate(self.grounds):
            for i in range(int(x) // 50, int(x + w) // 50 + 1):
                for j in range(int(y) // 50, int(y + h) // 50 + 1):
                    cells.setdefault((i, j), []).append(k)
        found = set()
        for title, look, d in self.trenches:
            for px, py in self.points(d, 300) if look != "other" else ():
                for k in cells.get((int(px) // 50, int(py) // 50), ()):
                    x, y, w, h = self.grounds[k]
                    if self.light[k] and x < px < x + w and y < py < y + h:
                        found.add(self.labels[k])
        return found


def apart(a, b):
    return a[0] + a[2] <= b[0] + 0.1 or b[0] + b[2] <= a[0] + 0.1 or a[1] + a[3] <= b[1] + 0.1 or b[1] + b[3] <= a[1] + 0.1


def off(ground, circle):
    x, y, w, h = ground
    dx = max(x - circle[0], circle[0] - x - w, 0)
    dy = max(y - circle[1], circle[1] - y - h, 0)
    return dx * dx + dy * dy >= circle[2] ** 2 - 1


def judge(name, rows, n, labelled, work):
    done = run("draw", rows, n, work)
    p = Picture(done.stdout)
    check(name + ": junctions", len(p.circles) == n)
    check(name + ": trenches", sorted(t[0].rsplit(", ", 1)[0] for t in p.trenches) ==
          sorted("trench %d: %d-%d, price %d" % (i + 1, a, b, w) for i, (a, b, w, mark) in enumerate(rows)))
    check(name + ": labels", set(p.labels) <= {"%d: %d" % (i + 1, row[2]) for i, row in enumerate(rows)} and len(set(p.labels)) == len(p.labels))
    check(name + ": enough labels", len(p.labels) >= labelled * len(rows))
    check(name + ": labels over lines", p.labels_above and len(p.grounds) == len(p.labels))
    check(name + ": labels apart", all(apart(a, b) for k, a in enumerate(p.grounds) for b in p.grounds[:k]))
    check(name + ": labels beside junctions", all(off(g, c) for g in p.grounds for c in p.circles))
    check(name + ": junctions apart", all((a[0] - b[0]) ** 2 + (a[1] - b[1]) ** 2 > (2 * a[2]) ** 2 for k, a in enumerate(p.circles) for b in p.circles[:k]))
    check(name + ": heavy trenches whole", not p.over_heavy())
    if n <= 30:
        check(name + ": trenches beside junctions", not p.over_junctions())
    inside = lambda x, y: 0 <= x <= p.size[0] and 0 <= y <= p.size[1]
    check(name + ": on the sheet", all(inside(x, y) and inside(x + w, y + h) for x, y, w, h in p.grounds)
          and all(inside(*p.middle(t[2])) for t in p.trenches) and all(inside(c[0], c[1]) for c in p.circles))
    check(name + ": no rows", ">row" not in p.text and "row " not in p.text)
    # Another plan and other prices: the junctions and the lines stay where they were.
    others = [(a, b, (w * 7 + 3) % 100000 - 50000, 1 - mark) for a, b, w, mark in rows]
    q = Picture(run("draw", others, n, work).stdout)
    check(name + ": junctions stay", p.circles == q.circles)
    check(name + ": trenches stay", sorted(t[2] for t in p.trenches) == sorted(t[2] for t in q.trenches))
    return p


def marked(rows, n, work):
    done = run("table", rows, n, work)
    path = os.path.join(work, "built.txt")
    with open(path, "w") as out:
        out.write(done.stdout)
    done = subprocess.run(STAR + ["build", "--table", path], capture_output=True, text=True)
    return [tuple(int(w) for w in line.split()) for line in done.stdout.splitlines()[1:]]


def near_network(n, degree, seed):
    """Junctions at random places, each joined to the nearest few."""
    random.seed(seed)
    places = [(random.random(), random.random()) for v in range(n)]
    pairs = set()
    for u in range(n):
        by_distance = sorted(range(n), key=lambda v: (places[u][0] - places[v][0]) ** 2 + (places[u][1] - places[v][1]) ** 2)
        pairs |= {(min(u, v), max(u, v)) for v in by_distance[1:degree + 1]}
    pairs |= {(v, v + 1) for v in range(0, n - 1, 7)}
    return [(u + 1, v + 1, random.randrange(10000), 0) for u, v in sorted(pairs)]


with tempfile.TemporaryDirectory() as work:
    yard = [(1, 2, 5, 1), (2, 3, 3, 1), (3, 4, 5, 1), (1, 4, 4, 0), (1, 3, 6, 0)]
    p = judge("yard", yard, 4, 1, work)
    check("yard: verdict", p.verdict == "A cheaper set exists, for 1 less: take out trench 1 (1-2, price 5), put in trench 4 (1-4, price 4).")
    check("yard: exchange", {(t[0].split(":")[0], t[1]) for t in p.trenches if t[1] in ("out", "in")} == {("trench 1", "out"), ("trench 4", "in")})
    p = judge("yard built", marked(yard, 4, work), 4, 1, work)
    check("yard built: verdict", p.verdict == "Passed. Total 12.")
    # Prices below 0, in labels, titles and the verdict.
    signed = [(1, 2, 5, 1), (2, 3, -3, 1), (3, 4, 5, 0), (1, 4, -4, 1), (1, 3, -2147483648, 0)]
    p = judge("signed", signed, 4, 1, work)
    check("signed: verdict", p.verdict == "A cheaper set exists, for 2147483653 less: take out trench 1 (1-2, price 5), put in trench 5 (1-3, price -2147483648).")
    p = judge("signed built", marked(signed, 4, work), 4, 1, work)
    check("signed built: verdict", p.verdict == "Passed. Total -2147483655.")
    judge("thirty signed", marked([(a, b, w - 5000, mark) for a, b, w, mark in near_network(30, 3, 5)], 30, work), 30, 0.9, work)
    judge("thirty", marked(near_network(30, 3, 5), 30, work), 30, 0.9, work)
    with open("console/examples/city.txt") as city:
        rows = [tuple(int(w) for w in line.split()) for line in city if line[0].isdigit()]
    judge("city", rows, 255, 0.95, work)
    judge("complete", [(u, v, u * v, 0) for u in range(1, 46) for v in range(u + 1, 46)], 45, 0.9, work)
    judge("spokes", [(1, v, 2147483647, 1) for v in range(2, 256)], 255, 0.9, work)
    judge("spokes below 0", [(1, v, -2147483648, 1) for v in range(2, 256)], 255, 0.9, work)
    judge("chain", [(v, v + 1, v, 1) for v in range(1, 40)], 40, 1, work)
    judge("apart", [(1, 2, 5, 1), (2, 3, 3, 0), (4, 5, 5, 1)], 7, 1, work)
    judge("alone", [], 1, 1, work)

print("%d passed, %d failed" % tuple(counts))
sys.exit(counts[1] > 0)
