"""Runs diglist on the texts of the sample and on tables with a spanning tree, and compares what it prints with a plain printer.
usage: digs.py PROGRAM [WORD..]           ends in one line 'N passed, M failed'
       digs.py --console STAR [WORD..]    the same of star digs, of a part of the texts, and of tables
"""
import random
import re
import sys

import run
from generate import sample
from reader import MAX_PRICE, MIN_PRICE, Refused, read
from run import pieces_of, run_pieces, run_whole


def tree_of(n, rows):
    """The rows that the builder chooses, counted from 1, or None: from the uppermost row of least weight on, it adds the uppermost of
    least weight among those with one end reached."""
    chosen, reached = [], set()
    while len(chosen) < n - 1:
        fits = [i for i, (a, b, _) in enumerate(rows) if not chosen or (a in reached) != (b in reached)]
        if not fits:
            return None
        best = min(fits, key=lambda i: (rows[i][2], i))
        chosen.append(best)
        reached |= set(rows[best][:2])
    return sorted(i + 1 for i in chosen)


def printed(text):
    answer = read(text)
    if isinstance(answer, Refused):
        return "Refused %d %d\n" % (answer.number, answer.place)
    tree = tree_of(*answer)
    if tree is None:
        return "Refused 11 0\n"
    lines = ["%d %d %d %d" % (i, *answer.rows[i - 1]) for i in tree]
    return "\n".join(lines + ["Total %d" % sum(answer.rows[i - 1][2] for i in tree)]) + "\n"


def connected(r):
    """A text whose table has a spanning tree."""
    n = r.choice([1, 2, 3, 4, 10, 99, 100, 254, 255, r.randint(2, 255)])
    ends = [(v, r.randint(1, v - 1)) for v in range(2, n + 1)]
    if n > 1:
        ends += [tuple(r.sample(range(1, n + 1), 2)) for _ in range(r.choice([0, 1, n, 1024 - n]))]
    r.shuffle(ends)
    prices = r.choice([[0], [1, 2], [MIN_PRICE], [MAX_PRICE], [MIN_PRICE, MAX_PRICE], [-1, 0, 1, 9, 10, 99, 100, -10, -99], range(MIN_PRICE, MAX_PRICE)])
    lines = ["E %d %d %d" % (*(r.sample(pair, 2)), r.choice(prices)) for pair in ends]
    return ("33D32945\nSECTION Graph\nNodes %d\nEdges %d\n%s\nEND\nEOF\n" % (n, len(ends), "\n".join(lines))).encode()


def compare(name, text, how, *words):
    try:
        status, out, err = how(*words)
    except run.subprocess.TimeoutExpired:
        status, out, err = "none", b"", b"did not end"
    expected = printed(text).encode()
    run.tell((status, out, err) == (int(expected.startswith(b"Refused")), expected, b""),
             f"{name}: status {status}, printed {out[:80]!r}, expected {expected[:80]!r}; {err[:60]!r}; {len(text)} bytes: {text[:200]!r}")


def told(name, text, program, content):
    """star digs prints the same; a refusal ends with status 2, and has words on standard error."""
    status, out, err = run_whole([*program, "digs"], content)
    expected = printed(text).encode()
    ok = out == expected and (status, err[:9]) == ((2, b"Refused (") if expected.startswith(b"Refused") else (0, b""))
    run.tell(ok, f"{name}: status {status}, printed {out[:80]!r}, expected {expected[:80]!r}; {err[:60]!r}; {len(text)} bytes: {text[:200]!r}")


def console(program):
    r = random.Random(6)
    texts = [t.text for t in sample()][::8] + [connected(r) for _ in range(50)]
    for text in texts:
        if re.match(rb"[ \t\r\n]*33[dD]32945([ \t\r\n]|$)", text):
            told("text", text, program, text)
        answer = read(text)
        if not isinstance(answer, Refused):
            table = "junctions %d\n" % answer.n + "".join("%d %d %d %d\n" % (*row, r.randint(0, 1)) for row in answer.rows)
            told("table", text, program, table.encode())
    print(f"{run.passed} passed, {run.failed} failed")
    return run.failed != 0


def main(program):
    if program[0] == "--console":
        return console(program[1:])
    r = random.Random(5)
    texts = [t.text for t in sample() if t.kind != "deepest"] + [connected(r) for _ in range(400)]
    for k, text in enumerate(texts):
        compare("whole", text, run_whole, program, text)
        if k % 5 == 0:
            size = r.choice([1, 3, 20]) if len(text) < 200 else r.choice([len(text) // 7, 700, 4096, 5000, 70000])
            compare("in pieces", text, run_pieces, program, text, pieces_of(r, max(1, size)))
    print(f"{run.passed} passed, {run.failed} failed")
    return run.failed != 0


if __name__ == "__main__":
    sys.exit(main(sys.argv[1:]))
