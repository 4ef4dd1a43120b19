"""Holds star_read_table to the reader of this folder, on random and damaged texts, CSV files, and the table files of the repository, those of
LibreOffice among them.

usage: run.py DOOR [COUNT] [FILE..]   DOOR is the program of door.c; ends in one line 'N passed, M failed'
A variant of the reader with a fault has to differ from the door on one of the texts at least.
"""
import csv
import io
import random
import struct
import subprocess
import sys

from faults import FAULTS
from reader import Reader

NAMES = [b"Rathaus", b"Markt", b"Markt 1", b"markt", b"Mark", b"Am Tor", b"B", b"b2", b"\xc3\x84cker", b"Hof/3", b"x", b"1a", b"no"]
PRICES = [b"5", b"0", b"-7", b"77", b"-0", b"007", b"2147483647", b"-2147483648", b"1200"]
BAD = [b"", b"0", b"256", b"5.50", b"1.000", b"+5", b"2147483648", b"-2147483649", b"-", b'"', b'""', b'"a', b"a\"b", b"2", b"50", b"price",
       b"struck", b"junctions", b"#", b"\x00", b"4294967296", b"\x7f", b"1 2", b"\xef\xbb\xbf"]
MARKS = [b"1", b"0", b"x", b"X", b"yes", b"Yes", b"true", b"no", b"NO", b"false", b"01", b"00", b""]
ENDS = [b"\n", b"\n", b"\r\n", b"\r", b"\n\n"]
HEADERS = [b"from,to,price", b"From;To;PRICE;Mark", b"a b price", b"x\ty\tPrice\tz"]


def line(r, names, numbers):
    by = r.choice([b" ", b" ", b"\t", b",", b";", b";"])
    if names:
        ends = [r.choice(NAMES).replace(b" ", b"") if by == b" " else r.choice(NAMES) for _ in "ab"]
    else:
        ends = [b"%d" % r.choice(numbers) for _ in "ab"]
    fields = ends + [r.choice(PRICES)]
    if r.random() < 0.7:
        fields.append(r.choice(MARKS))
    if r.random() < 0.15:
        fields.insert(0, r.choice([b"struck", b"Struck", b"STRUCK"]))
    if r.random() < 0.02:
        fields = [b"junctions", r.choice([b"3", b"255", b"300", b"4294967295", b"x"])]
    if r.random() < 0.04:
        fields[r.randrange(len(fields))] = r.choice(BAD + NAMES + [b"3"])
    if r.random() < 0.02:
        fields.insert(r.randrange(len(fields)), r.choice(BAD))
    around = [b"", b"", b"", b" ", b"\t"] if by in b",;" else [b""]
    fields = [r.choice(around) + (b'"' + f + b'"' if r.random() < 0.1 else f) + r.choice(around) for f in fields]
    tail = by * r.randrange(3) if r.random() < 0.1 else b""
    comment = r.choice([b"", b"", b"", b" # from the yard", b"#1 2 3"])
    return r.choice([b"", b"", b" ", b"\t"]) + by.join(fields) + tail + comment


def random_text(r):
    names, numbers = r.random() < 0.5, range(1, r.choice([3, 9, 256]))
    lines = [line(r, names, numbers) for _ in range(r.choice([0, 1, 2, 3, 5, 9]))]
    if r.random() < 0.3:
        lines.insert(0, r.choice(HEADERS))
    if r.random() < 0.2:
        lines.insert(r.randrange(len(lines) + 1), b"junctions %d" % r.randrange(300))
    if r.random() < 0.2:
        lines.insert(r.randrange(len(lines) + 1), r.choice([b"", b"  ", b"# nothing", b";;;", b",,"]))
    end = r.choice(ENDS)
    text = b"".join(one + end for one in lines)
    if r.random() < 0.3:
        text = text.rstrip(b"\r\n")
    return (b"\xef\xbb\xbf" if r.random() < 0.1 else b"") + text


def damaged(r, text):
    """A byte or a few of them changed, taken away or put in."""
    out = bytearray(text)
    for _ in range(r.choice([1, 1, 2, 5])):
        k = r.randrange(len(out) + 1)
        way = r.randrange(3)
        if way == 0 and k < len(out):
            out[k] = r.choice(b' \t\n\r,;"#-0123456789aX\x00\x7f\xc3')
        elif way == 1 and k < len(out):
            del out[k:k + r.choice([1, 1, 9])]
        else:
            out[k:k] = bytes([r.choice(b' \t\n\r,;"#-19a')])
    return bytes(out)


def sheet(r):
    """What Python's csv module writes of a sheet."""
    to = io.StringIO()
    out = csv.writer(to, delimiter=r.choice(",;\t"), quoting=r.choice([csv.QUOTE_MINIMAL, csv.QUOTE_ALL]), lineterminator=r.choice(["\n", "\r\n"]))
    out.writerow(["From", "To", "Price", "Mark"])
    for _ in range(r.randrange(12)):
        a, b = (r.choice(NAMES).decode() for _ in "ab")
        out.writerow([a, b, r.randrange(-99, 9999), r.choice(["x", "", "yes", "0"])])
    return to.getvalue().encode()


def large():
    """Texts at the bounds: rows, names, and a row or a name too many."""
    for rows in (1023, 1024, 1025):
        yield b"".join(b"%d %d %d 1\n" % (1 + k % 255, 1 + (k + 1) % 255, k) for k in range(rows))
    for names in (254, 255, 256):
        yield b"".join(b"n%d,n%d,5\n" % (k, k + 1) for k in range(names - 1))
        yield b"".join(b"n%d,n%d,5\n" % (k + 1, 0) for k in range(names - 1))
    yield b"# " + b"x" * 70000 + b"\n1 2 5 1\n1 2 x\n"
    yield b"1 2 5\n" * 1024 + b"\n\n# end\n"
    yield b"1 2 5\n" * 1024 + b"a b 5\n"
    yield b"1 2 5\n" * 1024 + b"1 2 x\n"
    yield b"#" * 16777216
    yield b"#" * 16777217
    yield b"\xef\xbb\xbf" + b"#" * 16777213
    yield b"\xef\xbb\xbf" + b"#" * 16777214


def texts(count, files):
    r = random.Random(7)
    yield from [b"", b"\n", b"1 2 5", b"\xef\xbb", b"\xef\xbb\xbf", b"\xef\xbb\xbf1 2 5\r", b"struck", b"a b price price x"]
    yield from large()
    for name in files:
        text = open(name, "rb").read()
        yield text
        yield damaged(r, text)
    for k in range(count):
        text = sheet(r) if k % 20 == 0 else random_text(r)
        yield damaged(r, text) if r.random() < 0.3 else text


# What LibreOffice writes of a sheet, kept in this folder: of these names what is read of every kind, or why none of it is. A
# separator within quotes parts fields too (20), and no name holds a quote (21).
STREETS = [b"Rathaus", b"Markt S\xc3\xbcd", b"\xc3\x84ckerweg 3", b"Hof/3"]
OF_LIBREOFFICE = {
    "numbers": (4, [(1, 2, 5, 1, False), (2, 3, -7, 0, False), (3, 1, 2147483647, 0, False), (4, 1, 9, 0, True)], []),
    "streets": (4, [(1, 2, 120, 1, False), (2, 3, -45, 0, False), (3, 1, 1200, 1, False), (4, 1, 7, 1, False)], STREETS),
    "names": (5, [(1, 2, 120, 1, False), (2, 3, -45, 0, False), (3, 1, 1200, 1, False), (4, 1, 7, 0, True)],
              [STREETS[0], b"Markt, S\xc3\xbcd"] + STREETS[2:]),
    "names-comma": 20, "quotes-comma": 20, "quotes-semicolon": 21, "quotes-tab": 21,
}


def of_libreoffice(name, said):
    """Whether the reader says of a file of LibreOffice what it should."""
    wanted = OF_LIBREOFFICE.get(name, OF_LIBREOFFICE.get(name.split("-")[0]))
    if isinstance(wanted, int):
        return said[:2] == ("refused", wanted)
    return said[0] == "read" and (said[1], [row[:5] for row in said[2]], said[3]) == wanted


def bytes_of(said):
    """What the door has to write of a text of which the reader says this."""
    if said[0] == "refused":
        return struct.pack("<BB6xQ", 0, said[1], said[2]) + b"\1"
    _, n, rows, names, at = said
    out = struct.pack("<BBHHBxQ", 1, 0, len(names), len(rows), 0, n) + b"\1"
    used = sum(1 << k for k, row in enumerate(rows) if not row[4])
    out += used.to_bytes(128, "little")
    out += bytes(row[0] for row in rows) + bytes(row[1] for row in rows)
    out += b"".join(struct.pack("<i", row[2]) for row in rows) + bytes(row[3] for row in rows)
    out += b"".join(struct.pack("<I", row[5]) for row in rows)
    out += b"".join(struct.pack("<I", a) for a in at)
    return out + b"".join(struct.pack("<I", a + len(w)) for a, w in zip(at, names))


def answers(door, sample):
    """What the program writes, text by text."""
    given = b"".join(struct.pack("<I", len(t)) + t for t in sample)
    out = subprocess.run([door], input=given, stdout=subprocess.PIPE, check=True, timeout=600).stdout
    at = 0
    for _ in sample:
        size = 17
        if out[at] == 1 and out[at + 16] == 1:
            names, rows = struct.unpack_from("<HH", out, at + 2)
            size += 128 + 11 * rows + 8 * names
        yield out[at:at + size]
        at += size
    if at != len(out):
        raise ValueError("the door wrote more than it was asked for")


def main():
    door, rest = sys.argv[1], sys.argv[2:]
    count = int(rest[0]) if rest else 20000
    sample = list(texts(count, rest[1:]))
    said = list(answers(door, sample))
    passed = failed = 0
    seen = set()
    reader = Reader()
    for text, got in zip(sample, said):
        wanted = reader.read(text)
        seen.add(wanted[1] if wanted[0] == "refused" else 0)
        if bytes_of(wanted) == got:
            passed += 1
            continue
        failed += 1
        if failed <= 10:
            print("of", text[:200], "the reader says", wanted[:3], "and the door", got[:17], file=sys.stderr)
    for name in rest[1:]:
        if "/libreoffice/" in name:
            good = of_libreoffice(name.split("/")[-1][:-4], reader.read(open(name, "rb").read()))
            passed, failed = passed + good, failed + (not good)
            if not good:
                print("the reader says something else of", name, file=sys.stderr)
    for number in (0, 2, 12, 20, 21, 22, 23, 24, 25, 26):
        if number in seen:
            passed += 1
        else:
            failed += 1
            print("no text is refused", number, file=sys.stderr)
    for fault in FAULTS:
        variant = fault()
        if any(bytes_of(variant.read(t)) != g for t, g in zip(sample, said)):
            passed += 1
        else:
            failed += 1
            print("nothing shows the fault:", fault.__doc__, file=sys.stderr)
    print("%d passed, %d failed" % (passed, failed))
    return failed > 0


if __name__ == "__main__":
    sys.exit(main())
