"""Certificates of random plans, and the same with one number changed, held to tests/certificate.py.

usage: certificates.py STAR [COUNT]      ends in one line 'N passed, M failed'
"""
import os
import random
import re
import subprocess
import sys
import tempfile

import certificate


def cheapest(n, rows, key):
    """The rows of a network, taken in the order of a key."""
    group, chosen = list(range(n + 1)), set()
    for i in sorted(range(len(rows)), key=key):
        left, right = group[rows[i][0]], group[rows[i][1]]
        if left != right:
            group = [left if g == right else g for g in group]
            chosen.add(i)
    return chosen


def table(rng):
    """A connected table as a text, some rows struck, with a network marked, a cheapest one at times."""
    n = rng.randint(1, 24)
    pairs = [(u, v) for u in range(1, n + 1) for v in range(u + 1, n + 1)]
    chain = [(rng.randint(1, v - 1), v) for v in range(2, n + 1)]
    rng.shuffle(pairs)
    joined = list(dict.fromkeys(chain + pairs[: rng.randint(0, 2 * n)]))
    rng.shuffle(joined)
    span = rng.choice([1, 5, 1000, 2**31 - 1])
    rows = [(*rng.sample(pair, 2), rng.randint(-span, span)) for pair in joined]
    order = rng.choice([lambda i: rows[i][2], lambda i: rng.random()])
    plan = cheapest(n, rows, order)
    lines = [f"junctions {n}"]
    for i, (left, right, price) in enumerate(rows):
        struck = i not in plan and rng.random() < 0.2
        mark = rng.randint(0, 1) if struck else int(i in plan)
        lines.append(f"{'struck ' if struck else ''}{left} {right} {price} {mark}")
    return "\n".join(lines) + "\n"


def holds(text, written):
    try:
        certificate.check(text, written)
    except (ValueError, KeyError, IndexError):
        return False
    return True


def changed(rng, text, written):
    """The certificate with one number changed so that it is no longer right."""
    places = list(re.finditer(r"-?\d+", written))
    place = rng.choice(places)
    number = int(place[0]) + rng.choice([-1, 1, 2, -7])
    head = written.startswith("cheaper") and places.index(place) < 2
    rows = certificate.read_table(text)[1]
    if head and number in rows and rows[number][2] == rows[int(place[0])][2]:
        number = 0  # a trench of the same price might do as well
    return written[: place.start()] + str(number) + written[place.end():]


def main():
    star, count = sys.argv[1], int(sys.argv[2]) if len(sys.argv) > 2 else 1000
    rng, passed, failed = random.Random(43), 0, 0
    with tempfile.TemporaryDirectory() as folder:
        name = os.path.join(folder, "plan.txt")
        for _ in range(count):
            text = table(rng)
            with open(name, "w", encoding="utf-8") as file:
                file.write(text)
            words = [star, "check", "--certificate", name]
            told = subprocess.run(words, capture_output=True, text=True, check=False)
            right = told.returncode in (0, 1) and holds(text, told.stdout)
            right = right and told.stdout.startswith(("passed", "cheaper")[told.returncode])
            wrong = [w for w in (changed(rng, text, told.stdout) for _ in range(5)) if holds(text, w)]
            if right and not wrong:
                passed += 1
            else:
                failed += 1
                print(f"certificate, status {told.returncode}:\n{text}{told.stdout}{told.stderr}{wrong}")
    print(f"{passed} passed, {failed} failed")
    sys.exit(failed != 0)


main()
