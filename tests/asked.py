"""Asks the console about random tables (quote, breaking, stretch, which, digs) and compares what it says with plain searches: every spanning forest is
found by sorted rows, a breaking price by a search over the prices of other trenches, a stretch by a walk, a dearest trench by every threshold.
usage: asked.py STAR..   ends in one line 'N passed, M failed'
"""
import random
import re
import subprocess
import sys
import tempfile

MIN, MAX = -2147483648, 2147483647
passed = failed = 0


def tell(ok, what):
    global passed, failed
    passed, failed = passed + bool(ok), failed + (not ok)
    if not ok and failed <= 10:
        print(what, file=sys.stderr)


def joined(n, ends):
    """A number for each junction, equal where the ends join them."""
    part = list(range(n + 1))
    for a, b in ends:
        if part[a] != part[b]:
            old, new = part[a], part[b]
            part = [new if p == old else p for p in part]
    return part


def tree(n, rows):
    """The trenches of a cheapest network, counted from 1, or None; rows are (left, right, price, struck)."""
    chosen, part = [], list(range(n + 1))
    for i in sorted((i for i, r in enumerate(rows, 1) if not r[3]), key=lambda i: (rows[i - 1][2], i)):
        a, b = rows[i - 1][:2]
        if part[a] != part[b]:
            old, new = part[a], part[b]
            part = [new if p == old else p for p in part]
            chosen.append(i)
    return sorted(chosen) if len(chosen) == n - 1 else None


def total(rows, chosen):
    return sum(rows[i - 1][2] for i in chosen)


def bottleneck(n, rows, a, b, without=0):
    """The least price of the dearest trench over all routes between two junctions, or None."""
    for price in sorted({r[2] for i, r in enumerate(rows, 1) if not r[3] and i != without}):
        part = joined(n, [r[:2] for i, r in enumerate(rows, 1) if not r[3] and i != without and r[2] <= price])
        if part[a] == part[b]:
            return price
    return None


def way(rows, chosen, a, b):
    """The trenches of a tree between two junctions, in order."""
    found, rest = {a: []}, [a]
    while rest:
        v = rest.pop()
        for i in chosen:
            if v in rows[i - 1][:2]:
                w = rows[i - 1][0] + rows[i - 1][1] - v
                if w not in found:
                    found[w] = found[v] + [i]
                    rest.append(w)
    return found[b]


def table(r):
    n = r.randint(2, 9)
    pairs = [(a, b) for a in range(1, n + 1) for b in range(1, a)]
    ends = [(v, r.randint(1, v - 1)) for v in range(2, n + 1)] if r.random() < 0.95 else []
    ends += [p for p in r.sample(pairs, r.randint(0, len(pairs))) if p not in ends]
    r.shuffle(ends)
    prices = r.choice([[1, 2, 3], range(-9, 10), [MIN, MAX, 0], range(MIN, MAX), range(1000)])
    rows = [(*r.sample(pair, 2), r.choice(prices), 0) for pair in ends]
    if r.random() < 0.4:
        rows = [(*row[:3], int(r.random() < 0.2)) for row in rows]
    return n, rows


def text(n, rows, marks=()):
    return "junctions %d\n" % n + "".join("%s%d %d %d %d\n" % ("struck " if s else "", a, b, p, i in marks) for i, (a, b, p, s) in enumerate(rows, 1))


class Console:
    def __init__(self, star):
        self.star = star

    def ask(self, command, content, *words):
        done = subprocess.run([*self.star, command, "-", *map(str, words)], input=content, capture_output=True, text=True, timeout=60)
        return done.returncode, done.stdout, done.stderr


def refusal(n, rows, i):
    """The refusal of a question about trench i; 0 if there is none."""
    return 7 if not 1 <= i <= len(rows) or rows[i - 1][3] else 0 if tree(n, rows) is not None else 11


def quote(console, r, n, rows):
    i, price = r.randint(0, len(rows) + 1), r.choice([MIN, MAX, r.randint(-20, 20), r.randint(MIN, MAX)])
    status, out, err = console.ask("quote", text(n, rows), i, price)
    number = refusal(n, rows, i)
    if number:
        tell((status, err) == (2, "") and out.startswith(f"Refused ({number}): "), f"quote {i} {price}: {out} {err} {text(n, rows)}")
        return
    before = total(rows, tree(n, rows))
    new = [(*row[:2], price, row[3]) if k == i else row for k, row in enumerate(rows, 1)]
    after = total(new, tree(n, new))
    words = "the same" if before == after else f"{abs(after - before)} {'more' if after > before else 'less'}"
    tell((status, err) == (0, "") and out.endswith(f"The cheapest network costs {before} today and {after} at the new price: {words}.\n"), f"quote {i} {price}: {out} {text(n, rows)}")


def breaking(console, r, n, rows):
    i = r.randint(0, len(rows) + 1)
    status, out, err = console.ask("breaking", text(n, rows), i)
    number = refusal(n, rows, i)
    if number:
        tell((status, err) == (2, "") and out.startswith(f"Refused ({number}): "), f"breaking {i}: {out} {err} {text(n, rows)}")
        return
    a, b, own, _ = rows[i - 1]
    price = bottleneck(n, rows, a, b, i)
    if price is None:
        tell((status, err) == (0, "") and "no other route; it is in every network" in out, f"breaking {i}: {out} {text(n, rows)}")
        return
    if own > price:
        pattern = f"is in no cheapest network at this price\\. It is in a cheapest network at {price}( or less|, the least price); above, trench "
    elif price == MAX:
        pattern = f"is in a cheapest network at every price; at the largest, {MAX}, trench "
    else:
        pattern = f"is in a cheapest network up to {price}; above, trench "
    found = re.search(pattern + r"(?P<instead>\d+) \(\d+-\d+, price -?\d+\)", out)
    ok = (status, err) == (0, "") and found is not None
    if ok:
        instead = int(found.group("instead"))
        without = [row if k != i else (*row[:3], 1) for k, row in enumerate(rows, 1)]
        least = total(rows, tree(n, without))
        exchanged = sorted(set(tree(n, without)) - {instead} | {i})
        cheap = [(*row[:2], price, 0) if k == i else row for k, row in enumerate(rows, 1)]
        # the trench named has the breaking price, and with the trench asked about in its place there is a cheapest network at the breaking price
        ok = rows[instead - 1][2] == price and not rows[instead - 1][3] and len(set(joined(n, [rows[k - 1][:2] for k in exchanged])[1:])) == 1
        ok = ok and total(cheap, exchanged) == total(cheap, tree(n, cheap)) == least
        ok = ok and f"costs {total(rows, tree(n, rows))} today, and {least} at " in out
    tell(ok, f"breaking {i}: {out} {text(n, rows)}")


def stretch(console, r, n, rows):
    chosen, (a, b) = tree(n, rows), r.sample(range(1, n + 1), 2)
    if chosen is None:
        return
    if r.random() < 0.4:  # a tree of other prices
        other = [(*row[:2], r.randint(0, 9), row[3]) for row in rows]
        chosen = tree(n, other)
    status, out, err = console.ask("stretch", text(n, rows, chosen), a, b)
    path = way(rows, chosen, a, b)
    least = total(rows, tree(n, rows)) == total(rows, chosen)
    dearest = max(rows[i - 1][2] for i in path)
    uppermost = min(i for i in path if rows[i - 1][2] == dearest)
    equal = [i for i in path if rows[i - 1][2] == dearest and i != uppermost]
    said = f"The way costs {sum(rows[i - 1][2] for i in path)} in all. Its dearest is trench {uppermost}, price {dearest}"
    if equal:
        several = len(equal) > 1
        said += f"; trench{'es' if several else ''} {', '.join(map(str, equal))} {'are' if several else 'is'} as dear.\n"
    else:
        said += "; no other of its trenches is as dear.\n" if len(path) > 1 else ".\n"
    listed = [int(x) for x in re.findall(r"^trench (\d+): ", out, re.M)]
    ok = (status, err) == (0 if least else 1, "") and listed == path and said in out
    if least:
        ok = ok and out.endswith(f"has a dearest trench cheaper than {dearest}.\n") and bottleneck(n, rows, a, b) == dearest
    else:
        ok = ok and "nothing is promised" in out
    tell(ok, f"stretch {a} {b}: {status} {out} {err} {text(n, rows, chosen)}")


def which(console, r, n, rows):
    plans = []
    for _ in range(2):
        plans.append(tree(n, [(*row[:2], r.randint(0, 9) if r.random() < 0.7 else row[2], row[3]) for row in rows]))
    if plans[0] is None:
        return
    with tempfile.NamedTemporaryFile("w", suffix=".txt") as second:
        second.write(text(n, rows, plans[1]))
        second.flush()
        status, out, err = console.ask("which", text(n, rows, plans[0]), second.name)
    costs = [total(rows, p) for p in plans]
    name = "first" if costs[0] <= costs[1] else "second"
    words = f"both cost {costs[0]}." if costs[0] == costs[1] else f"it costs {min(costs)} and the {'second' if name == 'first' else 'first'} {max(costs)}, {max(costs) - min(costs)} more."
    tell((status, err) == (0, "") and out.startswith(f"The {name} plan stands, ") and out.endswith(words + "\n"), f"which: {out} {err} {text(n, rows, plans[0])} {plans}")


def digs(console, r, n, rows):
    status, out, err = console.ask("digs", text(n, rows))
    chosen = tree(n, rows)
    if chosen is None:
        tell((status, out) == (2, "Refused 11 0\n") and err.startswith("Refused (11): "), f"digs: {out} {err} {text(n, rows)}")
        return
    lines = ["%d %d %d %d\n" % (i, *rows[i - 1][:3]) for i in chosen] + ["Total %d\n" % total(rows, chosen)]
    tell((status, out, err) == (0, "".join(lines), ""), f"digs: {out} {text(n, rows)}")


def plan_digs(console, r, n, rows):
    """The list of marks that are any tree; of marks that are none there is no list."""
    chosen = tree(n, [(*row[:2], r.randint(0, 9), row[3]) for row in rows])
    if chosen is None:
        return
    status, out, err = console.ask("digs", text(n, rows, chosen), "--plan")
    lines = ["%d %d %d %d\n" % (i, *rows[i - 1][:3]) for i in sorted(chosen)] + ["Total %d\n" % total(rows, chosen)]
    tell((status, out, err) == (0, "".join(lines), ""), f"digs --plan: {out} {text(n, rows, chosen)}")
    if n > 1:
        fewer = sorted(chosen)[1:]
        status, out, err = console.ask("digs", text(n, rows, fewer), "--plan")
        tell((status, out) == (2, "Refused 9 0\n") and err.startswith("Refused (9): "), f"digs --plan: {out} {err} {text(n, rows, fewer)}")


def main(star):
    r, console = random.Random(11), Console(star)
    for _ in range(250):
        n, rows = table(r)
        for question in (quote, breaking, stretch, which, digs, plan_digs):
            question(console, r, n, rows)
    print(f"{passed} passed, {failed} failed")
    return failed != 0


if __name__ == "__main__":
    sys.exit(main(sys.argv[1:]))
