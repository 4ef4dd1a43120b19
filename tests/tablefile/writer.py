"""A writer of planners' table files, written from docs/TABLE-FILES.md and from nothing else.

write(sheet) gives ('refused', number, place) or ('written', text). Writer has a method for each part, so that a variant with
a fault overrides one.
"""
import re
from collections import namedtuple

# What is lent: used is the rows in use, counted from 1; words how many words they were lent in; room the bytes for the text.
Sheet = namedtuple("Sheet", "n by left right weight mark text words used starts ends room answer")

ORDER = b";\t, "


class Writer:
    def lengths(self, x):
        m = len(x.left)
        if m > 1024:
            return 2, 0
        if not len(x.right) == len(x.mark) == m or len(x.weight) != 4 * m or x.words != 16 or len(x.starts) != len(x.ends):
            return 3, 0
        past = [row for row in sorted(x.used) if row > m]
        if past:
            return 3, past[0]
        if len(x.starts) > 255:
            return 26, 0
        return (28, 0) if bytes([x.by]) not in ORDER or not x.by else None

    def is_name(self, x, name):
        parting = ORDER[:ORDER.index(bytes([x.by])) + 1]
        if not re.search(rb"[A-Za-z\x80-\xff]", name) or re.search(rb'["#\x00-\x1f\x7f]', name):
            return False
        return name == name.strip(b" \t") and not any(b in parting for b in name)

    def names(self, x):
        for k, (a, b) in enumerate(zip(x.starts, x.ends)):
            if a > b or b > len(x.text):
                return 29, k + 1
            if not self.is_name(x, x.text[a:b]):
                return 21, k + 1
        return None

    def rows(self, x):
        most = len(x.starts) or 255
        for k, (a, b) in enumerate(zip(x.left, x.right)):
            if not (1 <= a <= most and 1 <= b <= most):
                return 4, k + 1
            if k + 1 in x.used and x.mark[k] > 1:
                return 6, k + 1
            if k + 1 in x.used and x.starts and self.end(x, a).lower() in (b"struck", b"junctions"):
                return 20, k + 1
        return None

    def space(self, x):
        longest = max([3] + [b - a for a, b in zip(x.starts, x.ends)])
        room = 43 + 1024 * (23 + 2 * longest)
        if room > 16777216:
            return 12, 16777216
        return (30, room) if x.room < room else None

    def end(self, x, v):
        return x.text[x.starts[v - 1]:x.ends[v - 1]] if x.starts else b"%d" % v

    def price(self, x, k):
        return int.from_bytes(x.weight[4 * k:4 * k + 4], "little", signed=True)

    def row(self, x, k):
        struck = k + 1 not in x.used
        fields = [self.end(x, x.left[k]), self.end(x, x.right[k]), b"%d" % self.price(x, k), b"0" if struck else b"%d" % x.mark[k]]
        return [b"struck"] * struck + fields

    def lines(self, x):
        header = [[b"left", b"right", b"price", b"mark"]] if x.by != 32 else []
        return header + [[b"junctions", b"%d" % x.n]] + [self.row(x, k) for k in range(len(x.left))]

    def write(self, x):
        refused = self.lengths(x) or self.names(x) or self.rows(x) or self.space(x)
        if refused:
            return ("refused",) + refused
        return "written", b"".join(bytes([x.by]).join(fields) + b"\n" for fields in self.lines(x))


class RowDropped(Writer):
    """the last row is dropped"""

    def lines(self, x):
        return super().lines(x)[:-1]


class EndsSwapped(Writer):
    """the ends are swapped"""

    def row(self, x, k):
        fields = super().row(x, k)
        return fields[:-4] + [fields[-3], fields[-4]] + fields[-2:]


class SignLost(Writer):
    """the sign of a price is lost"""

    def price(self, x, k):
        return abs(super().price(x, k))


class StruckInUse(Writer):
    """a struck row is written as in use"""

    def row(self, x, k):
        return super().row(x, k)[-4:]


class MarkBefore(Writer):
    """a row has the mark of the row before"""

    def row(self, x, k):
        return super().row(x, k)[:-1] + super().row(x, max(k - 1, 0))[-1:]


class MarkOfStruck(Writer):
    """a struck row keeps its mark"""

    def row(self, x, k):
        return super().row(x, k)[:-1] + [b"%d" % x.mark[k]]


class NameCut(Writer):
    """the last byte of a name is lost"""

    def end(self, x, v):
        return super().end(x, v)[:-1] if x.starts else super().end(x, v)


class NoHeader(Writer):
    """no header is written"""

    def lines(self, x):
        return [fields for fields in super().lines(x) if fields[0] != b"left"]


class OneTooFew(Writer):
    """one byte too few is enough"""

    def space(self, x):
        return super().space(x._replace(room=x.room + 1))


class WordTaken(Writer):
    """a left end called struck is written"""

    def rows(self, x):
        found = super().rows(x)
        return None if found and found[0] == 20 else found


class CommaTaken(Writer):
    """a name with a comma is written between blanks"""

    def is_name(self, x, name):
        return super().is_name(x, name.replace(b",", b""))


FAULTS = [RowDropped, EndsSwapped, SignLost, StruckInUse, MarkBefore, MarkOfStruck, NameCut, NoHeader, OneTooFew, WordTaken, CommaTaken]
