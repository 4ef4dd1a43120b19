"""Variants of the reader with a fault each, which the sample of texts has to show."""
import re

from reader import Reader, Refused


class RowDropped(Reader):
    """a row is dropped"""

    def read_lines(self, text):
        n, rows, names, at = super().read_lines(text)
        return n, rows[:-1], names, at


class EndsSwapped(Reader):
    """the ends are swapped"""

    def row(self, place, struck, fields):
        row = super().row(place, struck, fields)
        return row and (row[1], row[0]) + row[2:]


class NamePrefix(Reader):
    """a name is taken for one that begins so"""

    def meet(self, names, at, place, end):
        if isinstance(end, bytes):
            end = next((n for n in names if n.startswith(end)), end)
        return super().meet(names, at, place, end)


class NamesJoined(Reader):
    """two names that differ in case are one"""

    def meet(self, names, at, place, end):
        if isinstance(end, bytes):
            end = next((n for n in names if n.lower() == end.lower()), end)
        return super().meet(names, at, place, end)


class SignLost(Reader):
    """the sign of a price is lost"""

    def price(self, at, field):
        return abs(super().price(at, field)) % 2**31


class StruckInUse(Reader):
    """a struck row is in use"""

    def read_lines(self, text):
        n, rows, names, at = super().read_lines(text)
        return n, [row[:4] + (False,) + row[5:] for row in rows], names, at


class MarkBefore(Reader):
    """a trench without a mark has that of the line before"""

    last = 0

    def row(self, place, struck, fields):
        row = super().row(place, struck, fields)
        if row and len(fields) == 3 and not struck:
            row = row[:3] + (self.last,)
        if row:
            self.last = row[3]
        return row


class CommentRead(Reader):
    """a comment is read"""

    def content(self, line):
        return line.replace(b"#", b" ")


class LastLineLost(Reader):
    """a last line without an end is lost"""

    def lines(self, text):
        for at, line in super().lines(text):
            if at + len(line) < len(text):
                yield at, line


class RowsAsNames(Reader):
    """a row past 1,024 is told as a name too many"""

    def read(self, text):
        said = super().read(text)
        return ("refused", 26, said[2]) if said[:2] == ("refused", 2) else said


class CommasFirst(Reader):
    """commas part the fields before semicolons"""

    def separator(self, line):
        return next((s for s in (b",", b"\t", b";") if s in line), b" ")


class MarkKept(Reader):
    """a byte order mark is not passed over"""

    def lines(self, text):
        for line in re.compile(rb"[^\r\n]+").finditer(text):
            yield line.start(), line.group()


class HeaderRefused(Reader):
    """a header is no trench"""

    def row(self, place, struck, fields):
        row = super().row(place, struck, fields)
        if row is None:
            raise Refused(22, fields[2][0])
        return row


class PointTaken(Reader):
    """1.000 is a price"""

    def price(self, at, field):
        return super().price(at, field.replace(b".", b""))


class StruckNotCounted(Reader):
    """the junctions of struck trenches do not count"""

    def count(self, told, rows, names):
        return super().count(told, [r for r in rows if not r[4]], names)


FAULTS = [RowDropped, EndsSwapped, NamePrefix, NamesJoined, SignLost, StruckInUse, MarkBefore, CommentRead, LastLineLost, RowsAsNames, CommasFirst,
          MarkKept, HeaderRefused, PointTaken, StruckNotCounted]
