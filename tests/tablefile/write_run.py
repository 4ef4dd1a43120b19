"""Holds star_write_table to the writer of this folder on random tables, and reads back what it writes, by the reader of this folder
and by star_read_table.

usage: write_run.py WRITES READS [COUNT]   the programs of write_door.c and door.c; ends in one line 'N passed, M failed'
A variant of the writer with a fault has to differ from the door on one of the tables at least.
"""
import random
import struct
import subprocess
import sys

from reader import Reader
from run import answers, bytes_of
from writer import FAULTS, Sheet, Writer

NAMES = [b"Rathaus", b"Markt", b"Am Tor 1", b"B", b"\xc3\x84cker", b"Hof/3", b"x", b"1a", b"a, b", b"Struck", b"junctions", b"price", b"it's"]
BAD = [b"", b"12", b"a;b", b"a#", b'q"', b" a", b"a ", b"a\tb", b"\x7fa", b"?"]


def names_of(r, count):
    """A text with names in it, in any order, and where they stand."""
    chosen = [b"n%d" % k for k in range(count)]
    for k in range(count):
        if r.random() < 0.4:
            chosen[k] = r.choice(NAMES)
    if count and r.random() < 0.15:
        chosen[r.randrange(count)] = r.choice(BAD)
    text, starts, ends = b"", [], []
    for name in chosen:
        text += r.choice([b"", b";", b"\n", b"#"])
        starts.append(len(text))
        text += name
        ends.append(len(text))
    return text + b"\n" * r.randrange(2), starts, ends


def damaged(r, x):
    """One thing changed."""
    way = r.randrange(9)
    if way == 0:
        return x._replace(words=r.choice([0, 15, 17]))
    if way == 1:
        return x._replace(right=x.right + b"\1") if r.random() < 0.5 else x._replace(weight=x.weight + b"\1")
    if way == 2:
        return x._replace(mark=x.mark[1:] if x.mark else b"\0")
    if way == 3:
        return x._replace(used=x.used | {r.randrange(1, 1025)})
    if way == 4:
        return x._replace(by=r.choice([0, 33, 58, 124, 255]))
    if way == 5 and x.ends:
        k = r.randrange(len(x.ends))
        return x._replace(ends=x.ends[:k] + [r.choice([0, len(x.text) + 1, 2**32 - 1])] + x.ends[k + 1:])
    if way == 6 and x.left:
        k = r.randrange(len(x.left))
        return x._replace(left=x.left[:k] + bytes([r.choice([0, 255])]) + x.left[k + 1:])
    if way == 7 and x.mark:
        return x._replace(mark=bytes([r.choice([2, 255])]) + x.mark[1:])
    return x._replace(starts=x.starts[:-1] if x.starts else [0])


def sheet(r):
    m = r.choice([0, 1, 2, 3, 5, 9, 9, 9, 1024]) if r.random() < 0.99 else 1025
    count = r.choice([0, 0, 1, 2, 9, 255]) if r.random() < 0.99 else 256
    text, starts, ends = names_of(r, count)
    most = min(count or 255, 255)
    ends_of = [bytes(r.randrange(1, most + 1) for _ in range(m)) for _ in "ab"]
    weight = b"".join(struct.pack("<i", r.choice([0, 5, -7, 2**31 - 1, -2**31, r.randrange(-999, 999)])) for _ in range(m))
    used = {row for row in range(1, min(m, 1024) + 1) if r.random() < 0.8}
    mark = bytes(r.randrange(2) if k + 1 in used else r.randrange(256) for k in range(m))
    longest = max([3] + [b - a for a, b in zip(starts, ends)])
    room = 43 + 1024 * (23 + 2 * longest) + r.choice([0, 0, 7, 200, -1])
    n = r.choice([most, 1, 0, 255, 256, 2**32 - 1])
    x = Sheet(n, r.choice(b"  ;;,\t"), *ends_of, weight, mark, text, 16, frozenset(used), starts, ends, room, 16)
    if r.random() < 0.15:
        x = damaged(r, x)
    return x._replace(answer=r.choice([0, 15, 17])) if r.random() < 0.01 else x


def given(x):
    words = sum(1 << (row - 1) for row in x.used).to_bytes(128, "little") + b"\0" * 8
    sizes = [x.n, x.by, len(x.left), len(x.right), len(x.weight), len(x.mark), len(x.text), x.words, len(x.starts), len(x.ends), x.room, x.answer]
    return (struct.pack("<12I", *sizes) + x.left + x.right + x.weight + x.mark + x.text + words[:8 * x.words] +
            struct.pack("<%dI" % len(x.starts), *x.starts) + struct.pack("<%dI" % len(x.ends), *x.ends))


def wanted(x, said):
    """What the door has to write of a table of which the writer says this."""
    if x.answer != 16:
        return struct.pack("<I16xB", 0, 1)
    if said[0] == "refused":
        return struct.pack("<IBB6xQB", 1, 0, said[1], said[2], 1)
    return struct.pack("<IBB6xQB", 1, 1, 0, len(said[1]), 1) + said[1]


def written(door, sample):
    out = subprocess.run([door], input=b"".join(map(given, sample)), stdout=subprocess.PIPE, check=True, timeout=600).stdout
    at = 0
    for _ in sample:
        size = 21 + (struct.unpack_from("<Q", out, at + 12)[0] if out[at + 4] == 1 else 0)
        yield out[at:at + size]
        at += size


def same_table(x, read):
    """Whether what was read is the table: n, and of each row its ends by name or number, price, mark and whether it is struck."""
    kind, n, rows, names, _ = read if read[0] == "read" else read + (None,) * 2
    if kind != "read" or n != x.n or len(rows) != len(x.left):
        return False
    w = Writer()
    for k, row in enumerate(rows):
        ends = [names[v - 1] if names else b"%d" % v for v in row[:2]]
        struck = k + 1 not in x.used
        if ends != [w.end(x, x.left[k]), w.end(x, x.right[k])] or row[2:5] != (w.price(x, k), 0 if struck else x.mark[k], struck):
            return False
    return True


def main():
    writes, reads = sys.argv[1:3]
    count = int(sys.argv[3]) if len(sys.argv) > 3 else 6000
    r = random.Random(11)
    sample = [sheet(r) for _ in range(count)]
    got, said = list(written(writes, sample)), [Writer().write(x) for x in sample]
    texts = [s[1] for s in said if s[0] == "written"]
    back = dict(zip(texts, answers(reads, texts)))
    passed = failed = 0
    for x, g, s in zip(sample, got, said):
        good = wanted(x, s) == g
        if good and s[0] == "written":
            read = Reader().read(s[1])
            good = same_table(x, read) and bytes_of(read) == back[s[1]]
        passed, failed = passed + good, failed + (not good)
        if not good and failed <= 10:
            print("of", x._replace(text=x.text[:60]), "the writer says", s, "and the door", g[:60], file=sys.stderr)
    numbers = {s[1] for s in said if s[0] == "refused"}
    for number in (2, 3, 4, 6, 20, 21, 26, 28, 29, 30):
        passed, failed = passed + (number in numbers), failed + (number not in numbers)
        if number not in numbers:
            print("no table is refused", number, file=sys.stderr)
    for fault in FAULTS:
        shown = any(wanted(x, fault().write(x)) != g for x, g in zip(sample, got))
        passed, failed = passed + shown, failed + (not shown)
        if not shown:
            print("nothing shows the fault:", fault.__doc__, file=sys.stderr)
    print("%d passed, %d failed" % (passed, failed))
    return failed > 0


if __name__ == "__main__":
    sys.exit(main())
