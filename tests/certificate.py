"""Checks the certificate of a verdict against the table, and shares nothing with the project.

usage: certificate.py TABLE CERTIFICATE     prints 'right' (status 0) or what is wrong (status 1)
"""
import sys


def need(holds, words):
    if not holds:
        raise ValueError(words)


def read_table(text):
    """The number of junctions, and number -> (left, right, price, mark) of the trenches in use."""
    rows, number, told, largest = {}, 0, None, 0
    for line in text.splitlines():
        words = line.split("#")[0].split()
        if words and words[0].lower() == "junctions":
            told = int(words[1])
        elif words:
            number += 1
            struck = words[0].lower() == "struck"
            left, right, price, *mark = [int(word) for word in words[struck:]]
            largest = max(largest, left, right)
            if not struck:
                rows[number] = left, right, price, sum(mark)
    return told or largest, rows


def is_network(n, rows, plan):
    """Whether n - 1 trenches join every junction to junction 1."""
    reached = {1}
    for _ in range(n):
        for row in plan:
            ends = set(rows[row][:2])
            reached |= ends if ends & reached else set()
    return len(plan) == n - 1 and reached == set(range(1, n + 1))


def cost(rows, plan):
    return sum(rows[row][2] for row in plan)


def dearer_by(rows, plan, row, dearest, detour):
    """How much dearer a trench that is left out is than the dearest of its detour over the plan."""
    need(row in rows and row not in plan, f"{row} is not left out")
    need(set(detour) <= plan, f"{row}: the detour leaves the plan")
    at = rows[row][0]
    for step in detour:
        need(at in rows[step][:2], f"{row}: the detour is torn at {step}")
        at = sum(rows[step][:2]) - at
    need(at == rows[row][1], f"{row}: the detour does not arrive")
    uppermost = min(detour, key=lambda step: (-rows[step][2], step))
    need(dearest == uppermost, f"{row}: {dearest} is not the dearest of its detour")
    need(rows[row][2] >= rows[dearest][2], f"{row} is cheaper than {dearest}")
    return rows[row][2] - rows[dearest][2]


def check(table, certificate):
    n, rows = read_table(table)
    plan = {row for row in rows if rows[row][3] == 1}
    head, *lines = [line.split() for line in certificate.splitlines()]
    need(is_network(n, rows, plan), "the plan is no network")
    if head[0] == "passed":
        (_, total, only), by = head, {}
        for words in lines:
            need([words[0], words[2], words[4]] == ["left-out", "dearest", "detour"], "no detour")
            row, dearest, *detour = [int(word) for word in words[1:4:2] + words[5:]]
            by[row] = dearer_by(rows, plan, row, dearest, detour)
        need(len(by) == len(lines), "a trench has two lines")
        need(by.keys() == rows.keys() - plan, "a trench that is left out has no line")
        need(int(total) == cost(rows, plan), "the total is another")
        need(only == ("only" if all(by.values()) else "not-only"), "only or not-only")
    else:
        need(head[0] == "cheaper" and not lines, "no verdict")
        out, into, before, after = map(int, head[1:])
        need(out in plan and into in rows.keys() - plan, "no exchange of two trenches")
        other = plan - {out} | {into}
        need(is_network(n, rows, other), "the exchange is no network")
        need((before, after) == (cost(rows, plan), cost(rows, other)), "the totals are others")
        need(after < before, "nothing is saved")


if __name__ == "__main__":
    try:
        check(*(open(name, encoding="utf-8").read() for name in sys.argv[1:3]))
    except (ValueError, KeyError, IndexError) as fault:
        sys.exit(f"wrong: {fault}")
    print("right")
