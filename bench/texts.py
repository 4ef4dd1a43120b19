#!/usr/bin/env python3
"""Times texts of tables with 255 junctions: table files read and written, the same table as an STP text, and Python's csv
module, which cuts the fields alone. Processor time, the least of several runs, in microseconds.

usage: texts.py LIBSTAR.so [ROWS..]
"""
import csv
import ctypes
import io
import random
import struct
import sys
import time

ROWS, NAMES = 1024, 255


def least(call, turns=7):
    """The least processor time of a call, in microseconds, over runs of a twentieth of a second each."""
    call()
    best, count = None, 1
    for _ in range(turns):
        while True:
            start = time.process_time()
            for _ in range(count):
                call()
            took = time.process_time() - start
            if took > 0.05:
                break
            count *= 2
        best = min(best or took, took / count * 1e6) if best is not None else took / count * 1e6
    return best


class Columns:
    """What is lent to the doors of table files."""

    def __init__(self, library):
        self.library = library
        self.left, self.right, self.mark = (ctypes.create_string_buffer(ROWS) for _ in "abc")
        self.weight, self.answer = ctypes.create_string_buffer(4 * ROWS), ctypes.create_string_buffer(16)
        self.words, self.at = (ctypes.c_uint64 * 16)(), (ctypes.c_uint32 * ROWS)()
        self.start, self.end = (ctypes.c_uint32 * NAMES)(), (ctypes.c_uint32 * NAMES)()
        self.out = ctypes.create_string_buffer(43 + 1024 * (23 + 2 * 40))

    def size(self, k):
        return ctypes.c_size_t(k)

    def done(self):
        if self.answer.raw[0] != 1:
            raise ValueError("refused %d" % self.answer.raw[1])

    def read(self, text):
        self.library.star_read_table(text, self.size(len(text)), self.words, self.size(16), self.left, self.size(ROWS), self.right,
                                     self.size(ROWS), self.weight, self.size(4 * ROWS), self.mark, self.size(ROWS), self.start,
                                     self.size(NAMES), self.end, self.size(NAMES), self.at, self.size(ROWS), self.answer, self.size(16))
        self.done()

    def write(self, text, rows, names, by):
        self.library.star_write_table(NAMES, self.words, self.size(16), self.left, self.size(rows), self.right, self.size(rows),
                                      self.weight, self.size(4 * rows), self.mark, self.size(rows), text, self.size(len(text)),
                                      self.start, self.size(names), self.end, self.size(names), ctypes.c_uint8(ord(by)), self.out,
                                      self.size(len(self.out)), self.answer, self.size(16))
        self.done()
        return struct.unpack_from("<Q", self.answer.raw, 8)[0]

    def stp(self, text):
        self.library.star_import(text, self.size(len(text)), self.left, self.size(ROWS), self.right, self.size(ROWS), self.weight,
                                 self.size(4 * ROWS), self.answer, self.size(16))
        self.done()


def measure(c, rows):
    r = random.Random(rows)
    pairs = r.sample([(a, b) for a in range(1, NAMES + 1) for b in range(a + 1, NAMES + 1)], rows)
    prices = [r.randrange(-999, 99999) for _ in pairs]
    name = "Junction {:03d}".format
    numbers = "".join("%d;%d;%d;%d\n" % (*p, z, k % 2) for k, (p, z) in enumerate(zip(pairs, prices)))
    named = "".join("%s;%s;%d;%d\n" % (name(a), name(b), z, k % 2) for k, ((a, b), z) in enumerate(zip(pairs, prices)))
    stp = "33D32945 STP File, STP Format Version 1.0\nSECTION Graph\nNodes %d\nEdges %d\n" % (NAMES, rows)
    stp += "".join("E %d %d %d\n" % (*p, z) for p, z in zip(pairs, prices)) + "END\nEOF\n"
    numbers, names, stp = numbers.encode(), named.encode(), stp.encode()
    c.read(names)
    count = struct.unpack_from("<H", c.answer.raw, 2)[0]
    print("%d rows, %d names" % (rows, count))
    print("  star_read_table, numbers  %8.1f us  %6d bytes" % (least(lambda: c.read(numbers)), len(numbers)))
    print("  star_read_table, names    %8.1f us  %6d bytes" % (least(lambda: c.read(names)), len(names)))
    c.read(numbers)
    size = c.write(b"", rows, 0, " ")
    print("  star_write_table, numbers %8.1f us  %6d bytes" % (least(lambda: c.write(b"", rows, 0, " ")), size))
    c.read(names)
    size = c.write(names, rows, count, ";")
    print("  star_write_table, names   %8.1f us  %6d bytes" % (least(lambda: c.write(names, rows, count, ";")), size))
    if len(stp) <= 65536:
        print("  star_import, STP          %8.1f us  %6d bytes" % (least(lambda: c.stp(stp)), len(stp)))
    print("  Python's csv, names       %8.1f us  %6d bytes" % (least(lambda: list(csv.reader(io.StringIO(named), delimiter=";"))), len(names)))


def main():
    c = Columns(ctypes.CDLL(sys.argv[1]))
    for rows in [int(k) for k in sys.argv[2:]] or [128, 256, 512, 1024]:
        measure(c, rows)


if __name__ == "__main__":
    main()
