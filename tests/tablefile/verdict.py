"""Holds the program verdict to the reader of this folder and a plain check of its plan: on random
and damaged texts, on plans of many kinds, and on the table files of the repository, of which the
console's check says the same.

usage: verdict.py PROGRAM STAR [COUNT] [FILE..]   ends in one line 'N passed, M failed'
A variant with a fault has to differ from the program on one of the texts at least.
"""
import json
import random
import subprocess
import sys
import tempfile

from faults import FAULTS
from reader import Reader
from run import NAMES, damaged, large, texts

STATUSES = {b"P": 0, b"C": 1, b"R": 2}


def joined(n, rows, chosen):
    """For each junction from 1 to n a junction of its group, by the rows chosen."""
    group = list(range(n + 1))

    def find(v):
        while group[v] != v:
            group[v] = v = group[group[v]]
        return v

    for i in chosen:
        group[find(rows[i][0])] = find(rows[i][1])
    return [find(v) for v in range(n + 1)]


def least(n, rows, among):
    """The least total of a spanning tree of these rows, None where there is none; the rows are
    sorted by their prices: the first that closes no ring, again and again."""
    group, total, count = list(range(n + 1)), 0, 1
    for i in among:
        a, b = rows[i][0], rows[i][1]
        while group[a] != a:
            group[a] = a = group[group[a]]
        while group[b] != b:
            group[b] = b = group[group[b]]
        if a != b:
            group[a] = b
            total, count = total + rows[i][2], count + 1
            if count == n:
                return total
    return total if count == n else None


def path(rows, tree, a, b):
    """The rows of a tree on the way from a to b."""
    ways, seen = [(a, [])], {a}
    for v, way in ways:
        if v == b:
            return way
        for i in tree:
            for u, w in ((rows[i][0], rows[i][1]), (rows[i][1], rows[i][0])):
                if u == v and w not in seen:
                    seen.add(w)
                    ways.append((w, way + [i]))
    return []


class Judge:
    """The line of a text; rows are counted from 1 in what is told."""

    def __init__(self, reader=None):
        self.reader = reader or Reader()

    def used(self, rows):
        return [i for i, row in enumerate(rows) if not row[4]]

    def plan(self, rows):
        return [i for i in self.used(rows) if rows[i][3] == 1]

    def passed(self, total, only):
        return b"Passed %d%s\n" % (total, b" only" if only else b"")

    def cheaper(self, saving, out, into):
        return b"Cheaper %d out %d in %d\n" % (saving, out + 1, into + 1)

    def refused(self, number, place):
        return b"Refused %d %d\n" % (number, place)

    def refusal(self, n, rows):
        """Why the table or the plan is refused: the number and the place, None where it is not."""
        if not 1 <= n <= 255:
            return 1, 0
        for i in self.used(rows):
            if not (1 <= rows[i][0] <= n and 1 <= rows[i][1] <= n and rows[i][0] != rows[i][1]):
                return 4, i + 1
        met = set()
        for i in self.used(rows):
            pair = frozenset(rows[i][:2])
            if pair in met:
                return 15, i + 1
            met.add(pair)
        if len(self.plan(rows)) != n - 1:
            return 9, 0
        groups = joined(n, rows, self.plan(rows))
        apart = [v for v in range(1, n + 1) if groups[v] != groups[1]]
        return (10, apart[0]) if apart else None

    def exchange(self, rows):
        """The uppermost row outside the plan that is cheaper than one on the way between its ends,
        and before it the uppermost such row."""
        tree = self.plan(rows)
        for i in self.used(rows):
            if i not in tree:
                heavier = [k for k in path(rows, tree, *rows[i][:2]) if rows[k][2] > rows[i][2]]
                if heavier:
                    return min(heavier), i
        return None

    def line(self, text):
        said = self.reader.read(text)
        if said[0] == "refused":
            return self.refused(*said[1:])
        n, rows = said[1:3]
        why = self.refusal(n, rows)
        if why:
            return self.refused(*why)
        tree = self.plan(rows)
        total = sum(rows[i][2] for i in tree)
        used = sorted(self.used(rows), key=lambda i: rows[i][2])
        if total == least(n, rows, used):
            only = all(least(n, rows, [k for k in used if k != i]) != total for i in tree)
            return self.passed(total, only)
        out, into = self.exchange(rows)
        return self.cheaper(rows[out][2] - rows[into][2], out, into)


class SignLost(Judge):
    """the total's sign is lost"""

    def passed(self, total, only):
        return super().passed(abs(total), only)


class AlwaysOnly(Judge):
    """every plan that passes is the only one"""

    def passed(self, total, only):
        return super().passed(total, True)


class NeverOnly(Judge):
    """no plan is the only one"""

    def passed(self, total, only):
        return super().passed(total, False)


class Exchanged(Judge):
    """the row that goes out is told as the one that comes in"""

    def cheaper(self, saving, out, into):
        return super().cheaper(saving, into, out)


class FromZero(Judge):
    """rows are told from 0"""

    def cheaper(self, saving, out, into):
        return super().cheaper(saving, out - 1, into - 1)


class Turned(Judge):
    """the saving's digits are turned"""

    def cheaper(self, saving, out, into):
        return super().cheaper(int(str(saving)[::-1]), out, into)


class LastRow(Judge):
    """the lowest heavier row goes out"""

    def exchange(self, rows):
        out, into = super().exchange(rows)
        way = path(rows, self.plan(rows), *rows[into][:2])
        return max(k for k in way if rows[k][2] > rows[into][2]), into


class NoPlace(Judge):
    """the place of a refusal is lost"""

    def refused(self, number, place):
        return super().refused(number, 0)


class TreesOnly(Judge):
    """a plan that is no tree is not refused"""

    def refused(self, number, place):
        return self.passed(0, False) if number in (9, 10) else super().refused(number, place)


VARIANTS = [SignLost, AlwaysOnly, NeverOnly, Exchanged, FromZero, Turned, LastRow, NoPlace,
            TreesOnly]


def planned(r):
    """A text whose plan is a tree more often than not, with rows more, struck rows, names."""
    n = r.choice([1, 2, 3, 4, 4, 5, 6, 9])
    prices = r.choice([[1, 2, 3], [5], range(-9, 9), [-2**31, 2**31 - 1], range(10, 9999)])
    pairs = {frozenset((v, r.randint(1, v - 1))) for v in range(2, n + 1)}
    tree = set(pairs)
    if n > 2:
        pairs |= {frozenset(r.sample(range(1, n + 1), 2)) for _ in range(r.randrange(8))}
    rows = [[*r.sample(sorted(p), 2), r.choice(prices), p in tree, False]
            for p in sorted(pairs, key=sorted)]
    if n > 1:
        rows += [[*r.sample(range(1, n + 1), 2), r.choice(prices), r.random() < 0.5, True]
                 for _ in range(r.randrange(3))]
    r.shuffle(rows)
    if r.random() < 0.6:
        cheapest(n, rows)
    if rows and r.random() < 0.1:
        r.choice(rows)[r.randrange(5)] = r.randint(0, 1)
    by, end = r.choice([b" ", b";", b",", b"\t"]), r.choice([b"\n", b"\r\n"])
    names = r.sample([name for name in NAMES if b" " not in name and name != b"no"], n)
    named = r.random() < 0.4

    def junction(v):
        return names[v - 1] if named and v else b"%d" % v

    lines = [by.join([b"struck"] * struck + [junction(a), junction(b), b"%d" % price]
                     + [b"%d" % mark] * (mark or r.random() < 0.5))
             for a, b, price, mark, struck in rows]
    if r.random() < 0.3 or n == 1:
        lines.insert(r.randrange(len(lines) + 1), b"junctions %d" % n)
    return end.join(lines) + (end if r.random() < 0.8 else b"")


def cheapest(n, rows):
    """Marks a cheapest tree of the rows in use."""
    group = list(range(n + 1))
    for row in sorted(rows, key=lambda row: row[2]):
        if not row[4]:
            a, b = group[row[0]], group[row[1]]
            row[3] = a != b
            group = [b if g == a else g for g in group]


def sample(count, files):
    r = random.Random(11)
    yield from large()
    yield from (t for t in texts(count // 2, files) if len(t) < 60000)
    for k in range(count - count // 2):
        text = planned(r)
        yield damaged(r, text) if k % 5 == 0 else text
    whole = [(1 + k, 2 + k, k % 7, 1) for k in range(254)]
    whole += [(1 + k % 250, 3 + k % 250 + k // 250, 9, 0) for k in range(700)]
    yield b"".join(b"%d %d %d %d\n" % row for row in whole)


def run(program, text):
    with tempfile.TemporaryFile() as file:
        file.write(text)
        file.seek(0)
        done = subprocess.run([program], stdin=file, capture_output=True, timeout=60)
    return done.returncode, done.stdout, done.stderr


def told(star, name):
    """What the line begins with by the console's check of a file; nothing where it does not read
    the file. Which of several exchanges is named is each one's own."""
    done = subprocess.run([star, "check", "--json", name], capture_output=True, timeout=60)
    out = json.loads(done.stdout)
    if out["verdict"] == "passed":
        return Judge().passed(out["total"], out["only"])
    if out["verdict"] == "cheaper":
        return b"Cheaper "
    return b"Refused %d " % out["refusal"] if out["verdict"] == "refused" else b""


def main():
    program, star, rest = sys.argv[1], sys.argv[2], sys.argv[3:]
    count, files = int(rest[0]) if rest else 3000, rest[1:]
    passed = failed = 0

    def tell(ok, *words):
        nonlocal passed, failed
        passed, failed = passed + bool(ok), failed + (not ok)
        if not ok and failed <= 10:
            print(*words, file=sys.stderr)

    given, said = list(sample(count, files)), []
    for text in given:
        said.append(run(program, text))
        line = Judge().line(text)
        tell(said[-1] == (STATUSES[line[:1]], line, b""), "of", text[:200], "verdict says",
             said[-1], "and not", line)
    refusals = [b"Refused %d " % k for k in (1, 2, 4, 9, 10, 12, 15, 20, 26)]
    for kind in [b"Passed 12\n", b"Passed 12 only\n", b"Cheaper 1 ", b"Passed -"] + refusals:
        tell(any(out.startswith(kind) for _, out, _ in said), "no text is told", kind)
    for variant in [kind() for kind in VARIANTS] + [Judge(fault()) for fault in FAULTS]:
        fault = variant.__doc__ if type(variant) is not Judge else variant.reader.__doc__
        tell(any(len(t) < 60000 and variant.line(t) != out for t, (_, out, _) in zip(given, said)),
             "nothing shows the fault:", fault)
    for name in files:
        line, out = told(star, name), run(program, open(name, "rb").read())[1]
        read = not out.startswith((b"Refused 2", b"Refused 12"))
        tell(not line or not read or out.startswith(line), "of", name, "verdict says", out,
             "and the console", line)
    print("%d passed, %d failed" % (passed, failed))
    return failed > 0


if __name__ == "__main__":
    sys.exit(main())
