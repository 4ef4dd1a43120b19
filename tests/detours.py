"""Tests of explain: on random plans, the detours, their sums and dearest trenches, rings, and junctions cut off, against a search of its own.
usage: detours.py STAR"""
import random, re, sys

from calls import star

random.seed(11)


def explain(rows, n, *words):
    text = "junctions %d\n" % n + "".join("%d %d %d %d\n" % row for row in rows)
    return star(text, "explain", *words)[0]


def way(rows, a, b, without=None):
    """The marked trenches from a to b, by a search; None if there are none."""
    found, rest = {a: []}, [a]
    while rest:
        u = rest.pop(0)
        for i, (x, y, w, mark) in enumerate(rows):
            if mark and i != without and u in (x, y):
                v = x + y - u
                if v not in found:
                    found[v] = found[u] + [i + 1]
                    rest.append(v)
    return found.get(b)


def joined(rows, n):
    return all(way(rows, 1, v) is not None for v in range(1, n + 1))


def check(rows, n):
    text = "junctions %d\n" % n + "".join("%d %d %d %d\n" % row for row in rows)
    return star(text, "check")[0]


def is_ring(rows, trenches, stops):
    """Whether the trenches are marked and lead through the junctions, each once, back to the first."""
    if len(set(trenches)) != len(trenches) or len(set(stops)) != len(trenches) or len(stops) != len(trenches) + 1 or stops[0] != stops[-1]:
        return False
    return all(rows[i - 1][3] and {rows[i - 1][0], rows[i - 1][1]} == {stops[k], stops[k + 1]} for k, i in enumerate(trenches))


def numbers(text):
    """The numbers of '1, 2, 5 to 9'."""
    found = []
    for piece in text.split(", "):
        ends = [int(word) for word in piece.split(" to ")]
        found += range(ends[0], ends[-1] + 1)
    return found


def torn(rows, n, said):
    """Whether rings and groups are told of marks that are no network: every group, and as many rings as marked trenches have to go."""
    groups = []
    for v in range(1, n + 1):
        if not any(v in group for group in groups):
            groups.append([u for u in range(1, n + 1) if way(rows, v, u) is not None])
    marks = sum(row[3] for row in rows)
    if marks == 0:
        return "ring:" not in said and "groups" not in said
    told = [numbers(line) for line in re.findall(r"^  junctions? ([0-9, to]+)$", said, re.M)]
    rings = re.findall(r"^A ring: trenches ([0-9, ]+) \(([0-9-]+)\)\.$", said, re.M)
    rings = [([int(w) for w in trenches.split(", ")], [int(w) for w in stops.split("-")]) for trenches, stops in rings]
    last = {trenches[-1] for trenches, _ in rings}
    return (told == (groups if len(groups) > 1 else []) and len(rings) == marks - n + len(groups) == len(last)
            and all(is_ring(rows, *ring) for ring in rings) and "Cut off" not in said)


faults = 0
for number in range(60):
    n = random.randrange(2, 13)
    pairs = [(u, v) if random.random() < 0.5 else (v, u) for u in range(1, n + 1) for v in range(u + 1, n + 1)]
    random.shuffle(pairs)
    pairs = pairs[:max(n - 1, random.randrange(2 * n))]
    prices = random.choice(([0, 1, 2], range(-50, 50)))
    rows = [(u, v, random.choice(prices), 0) for u, v in pairs]
    for k in random.sample(range(len(rows)), min(n - 1, len(rows))):
        rows[k] = rows[k][:3] + (1,)
    if random.random() < 0.6:  # a tree: trenches as they come, those that close a ring left out
        rows = [row[:3] + (0,) for row in rows]
        for k, (u, v, w, mark) in enumerate(rows):
            if way(rows, u, v) is None:
                rows[k] = (u, v, w, 1)
    said = explain(rows, n, "--all")
    marks = sum(row[3] for row in rows)
    if joined(rows, n) and marks == n - 1:
        for i, (u, v, w, mark) in enumerate(rows):
            if mark:
                continue
            path = way(rows, u, v)
            dearest = max(rows[k - 1][2] for k in path)
            sign = "<" if w < dearest else "=" if w == dearest else ">"
            line = re.search(r"^trench %d \(.*\n.*$" % (i + 1), said, re.M)
            wanted = "Its detour: trench%s %s (" % ("es" if len(path) > 1 else "", ", ".join(map(str, path)))
            faults += not (line and wanted in line.group(0) and "sum %d, does not count; dearest %d (trench %d); %d %s %d: " % (
                sum(rows[k - 1][2] for k in path), dearest, min(k for k in path if rows[k - 1][2] == dearest), w, sign, dearest) in line.group(0))
    else:
        faults += not torn(rows, n, said) or not torn(rows, n, check(rows, n))
print("%d faults" % faults)
sys.exit(faults > 0)
