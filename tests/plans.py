"""Tests of districts, mend and outlets: on random files, with struck trenches in some, what they write and tell against plain searches in Python, and
what check says of the plans that they write.
usage: plans.py STAR.."""
import itertools, random, re, sys

from calls import fault, faults, star

random.seed(29)


def random_file(n):
    """A connected network, mostly: the text of its file, and its trenches in use by number: left, right, price, mark."""
    pairs = [(u, v) for u in range(1, n + 1) for v in range(u + 1, n + 1)]
    random.shuffle(pairs)
    lines, rows = [], {}
    for number, (u, v) in enumerate(pairs[:random.randrange(max(1, n - 1), 3 * n)], 1):
        struck, price, mark = random.random() < 0.15, random.choice((0, 3, 3, -7, random.randrange(-99, 99))), int(random.random() < 0.5)
        lines.append("%s%d %d %d%s" % ("struck " if struck else "", u, v, price, " 1" if mark else random.choice(("", " 0", " 0  # not yet"))))
        if not struck:
            rows[number] = (u, v, price, mark)
    lines.insert(random.randrange(len(lines) + 1), "junctions %d" % n)
    return "\n".join(lines) + "\n", rows, len(lines) - 1


class Parts(dict):
    def root(self, v):
        while v in self:
            v = self[v]
        return v

    def join(self, u, v):
        u, v = self.root(u), self.root(v)
        if u != v:
            self[u] = v
        return u != v


def least(rows, numbers):
    """A least forest of these trenches: their numbers."""
    parts = Parts()
    return [i for i in sorted(numbers, key=lambda i: rows[i][2]) if parts.join(rows[i][0], rows[i][1])]


def cost(rows, numbers):
    return sum(rows[i][2] for i in numbers)


def listed(block):
    """The numbers of the trenches that lines list, and the total below them."""
    return [int(i) for i in re.findall(r"^trench (\d+): ", block, re.M)], int(re.search(r"^Total (-?\d+)$", block, re.M)[1])


def passes(text, total):
    said = star(text, "check")
    return said[2] == 0 and "Total %d." % total in said[0]


def districts(n):
    text, rows, m = random_file(n)
    ends = sorted(random.sample(range(1, m + 1), random.randrange(1, min(m, 8) + 1)))
    ends[-1] = m
    out, err, status = star(text, "districts", *map(str, ends))
    best = least(rows, rows)
    if len(best) < n - 1:
        if status != 2 or not out.startswith("Refused (11): "):
            fault("districts of a table that is apart", text, err)
        return
    blocks = re.split(r"^(?:District|The city).*:\n", out, flags=re.M)[1:]
    for first, last, block in zip([1] + [e + 1 for e in ends], ends, blocks):
        chosen, total = listed(block)
        run = [i for i in rows if first <= i <= last]
        if len(least(rows, chosen)) != len(chosen) or len(chosen) != len(least(rows, run)) or not set(chosen) <= set(run) or total != cost(rows, chosen) or total != cost(rows, least(rows, run)):
            fault("a district", first, last, text, out)
    city, total = listed(blocks[-1])
    forests = {i for block in blocks[:-1] for i in listed(block)[0]}
    if status != 0 or len(blocks) != len(ends) + 1 or total != cost(rows, best) or not set(city) <= forests or not passes(star(text, "districts", "--table", *map(str, ends))[0], total):
        fault("the city", ends, text, out, err)


def path(rows, marked, u, v, seen=()):
    if u == v:
        return []
    for i in marked:
        if i not in seen and u in rows[i][:2]:
            rest = path(rows, marked, rows[i][0] + rows[i][1] - u, v, seen + (i,))
            if rest is not None:
                return [i] + rest
    return None


def mended(rows, n):
    marked, told, parts = {i for i in rows if rows[i][3]}, [], Parts()
    name = lambda i: "trench %d (%d-%d, price %d)" % (i, *rows[i][:3])
    for i in sorted(marked):
        if not parts.join(*rows[i][:2]):
            marked.remove(i)
            told.append("dropped %s: it closes a ring" % name(i))
    for i in sorted(rows):
        if parts.join(*rows[i][:2]):
            marked.add(i)
            told.append("added %s: it joins what was apart" % name(i))
    if len(marked) < n - 1:
        return None, None
    for i in sorted(set(rows) - marked):
        worst = max(path(rows, sorted(marked), *rows[i][:2]), key=lambda k: (rows[k][2], -k))
        if rows[worst][2] > rows[i][2]:
            marked = marked - {worst} | {i}
            told.append("exchanged %s for %s: saves %d" % (name(worst), name(i), rows[worst][2] - rows[i][2]))
    return marked, told


def best(rows, marked):
    """The exchange that alone saves most: what it saves, the trench out, the trench in."""
    worst = lambda i: max(path(rows, sorted(marked), *rows[i][:2]), key=lambda k: (rows[k][2], -k))
    return max(((rows[worst(i)][2] - rows[i][2], -i, worst(i)) for i in set(rows) - marked))


def ended(rows, n, marked):
    """What mend says first: the trenches taken out and put in, and the totals."""
    before = {i for i in rows if rows[i][3]}
    name = lambda i: "trench %d (%d-%d, price %d)\n" % (i, *rows[i][:3])
    said = "".join("taken out " + name(i) for i in sorted(before - marked)) + "".join("put in    " + name(i) for i in sorted(marked - before))
    if not said:
        return "There is nothing to mend: the plan is a cheapest network. Total %d.\n" % cost(rows, marked)
    if len(before) == n - 1 == len(least(rows, before)):
        said += "The plan's total was %d and is %d now: no network is cheaper.\n" % (cost(rows, before), cost(rows, marked))
        if len(before - marked) > 1:
            saves, into, out = best(rows, before)
            words = (saves, name(out)[:-1], name(-into)[:-1])
            said += "One exchange alone saves %d at most: take out %s, put in %s.\n" % words
    elif not before:
        said += "No trench was marked. The plan's total is %d now: no network is cheaper.\n" % cost(rows, marked)
    else:
        said += "The marked trenches were no network, and cost %d. The plan's total is %d now: no network is cheaper.\n" % (cost(rows, before), cost(rows, marked))
    return said


def without_marks(text):
    return [line.split("#")[0].split()[:3] if line[:1].isdigit() else line for line in text.split("\n")]


def mend(n):
    text, rows, _ = random_file(n)
    out, err, status = star(text, "mend", "--steps")
    marked, told = mended(rows, n)
    if marked is None:
        if status != 2 or out or not err.startswith("Refused (11): "):
            fault("a mend of a table that is apart", text, err)
        return
    lines = [line for line in out.split("\n") if line and not line.startswith("junctions")]
    written = {i for i, line in enumerate(lines, 1) if not line.startswith("struck") and line.split("#")[0].split()[3:] == ["1"]}
    if status != 0 or err != ended(rows, n, marked) + "".join(step + "\n" for step in told) or written != marked or without_marks(out) != without_marks(text) or not passes(out, cost(rows, marked)):
        fault("a mend", text, out, err, told)
    if star(text, "mend")[1] != ended(rows, n, marked):
        fault("a mend without its steps", text)
    again = star(out, "mend")
    if again[0] != out or "nothing to mend" not in again[1]:
        fault("a mend of what is mended", text, out, again)


def outlets(n):
    text, rows, _ = random_file(min(n, 6))
    n, r = min(n, 6), random.randrange(1, min(n, 6) + 1)
    trees = [tree for tree in itertools.combinations(rows, n - 1) if len(least(rows, tree)) == n - 1]
    totals = {}
    for tree in trees:
        count = sum(r in rows[i][:2] for i in tree)
        totals[count] = min(totals.get(count, 10 ** 9), cost(rows, tree))
    for count in range(n + 1):
        out, err, status = star(text, "outlets", str(r), str(count))
        if not trees:
            good = status == 2 and out.startswith("Refused (11): ")
        elif count not in totals:
            good = status == 2 and out.startswith("Refused (19): ") and ("from %d to %d are possible" if len(totals) > 1 else "every network has %d there") % \
                ((min(totals), max(totals)) if len(totals) > 1 else min(totals)) in out
        else:
            chosen, total = listed(out)
            saved = total - min(totals.values())
            good = status == 0 and tuple(chosen) in trees and total == totals[count] == cost(rows, chosen) and sum(r in rows[i][:2] for i in chosen) == count \
                and ("No network is cheaper" if saved == 0 else ": %d less." % saved) in out
        if not good:
            fault("outlets", r, count, text, out, err)


for test in (districts, mend, outlets):
    for number in range(60):
        test(random.randrange(2, 9))
sys.exit(len(faults) != 0)
