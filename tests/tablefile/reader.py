"""A reader of planners' table files, written from the ten rules of docs/TABLE-FILES.md and from nothing else.

read(text) gives ('refused', number, place), or ('read', n, rows, names, at): rows are tuples (left, right, price, mark,
struck, place), names the bytes of each name in the order in which they are met, at the place of each.
Reader has a method for each rule, so that a variant with a fault overrides one.
"""
import re

MOST_BYTES, MOST_ROWS, MOST_NAMES = 16777216, 1024, 255
MARKS = {b"1": 1, b"x": 1, b"yes": 1, b"true": 1, b"0": 0, b"no": 0, b"false": 0}


class Refused(Exception):
    pass


class Reader:
    def lines(self, text):
        """Rule 1: each line with its place; CR LF gives an empty line between, which says nothing."""
        start = 3 if text.startswith(b"\xef\xbb\xbf") else 0
        for line in re.compile(rb"[^\r\n]+").finditer(text, start):
            yield line.start(), line.group()

    def content(self, line):
        """Rule 2."""
        return line.split(b"#", 1)[0]

    def separator(self, line):
        """Rule 3."""
        return next((s for s in (b";", b"\t", b",") if s in line.strip(b" \t")), b" ")

    def unquoted(self, at, field):
        at, field = self.stripped(at, field)
        if len(field) > 1 and field[:1] == field[-1:] == b'"':
            return self.stripped(at + 1, field[1:-1])
        return at, field

    def stripped(self, at, field):
        bare = field.lstrip(b" \t")
        return (at + len(field) - len(bare), bare.rstrip(b" \t")) if bare else (at, b"")

    def fields(self, at, line):
        """Rule 3: the fields with their places."""
        line = self.content(line)
        at, line = self.stripped(at, line)
        by, out = self.separator(line), []
        for field in line.split(by):
            out.append(self.unquoted(at, field))
            at += len(field) + 1
        if by == b" ":
            out = [f for f in out if f[1]]
        while out and not out[-1][1]:
            out.pop()
        return out

    def number(self, field):
        return int(field) if re.fullmatch(rb"[0-9]+", field) and int(field) < 2**32 else None

    def junction(self, at, field):
        """Rule 5: a number or a name."""
        if re.fullmatch(rb"[0-9]+", field):
            if 1 <= int(field) <= 255:
                return int(field)
        elif re.search(rb"[A-Za-z\x80-\xff]", field) and not re.search(rb'["\x00-\x1f\x7f]', field):
            return field
        raise Refused(21, at)

    def price(self, at, field):
        """Rule 6."""
        if re.fullmatch(rb"-?[0-9]+", field) and -2**31 <= int(field) < 2**31:
            return int(field)
        raise Refused(22, at)

    def mark(self, at, field):
        """Rule 7; a number may have zeros in front."""
        word = field.lower()
        if re.fullmatch(rb"0*[01]", word) and len(word) > 1:
            word = word[-1:]
        if word in MARKS:
            return MARKS[word]
        raise Refused(23, at)

    def word(self, field, word):
        """Rule 10."""
        return field.lower() == word

    def row(self, place, struck, fields):
        """Rules 4 and 8: two junctions, a price, and a mark or none; nothing of a header."""
        if not 3 <= len(fields) <= 4:
            raise Refused(20, place)
        if not struck and self.word(fields[2][1], b"price"):
            return None
        left, right = self.junction(*fields[0]), self.junction(*fields[1])
        price = self.price(*fields[2])
        mark = self.mark(*fields[3]) if len(fields) == 4 else 0
        return left, right, price, 0 if struck else mark

    def kind(self, here, end, place):
        """Rule 5: numbers in the whole file, or names."""
        if here is not None and here != type(end):
            raise Refused(25, place)
        return type(end)

    def meet(self, names, at, place, end):
        if isinstance(end, int):
            return end
        if end not in names:
            if len(names) == MOST_NAMES:
                raise Refused(26, place)
            names.append(end)
            at.append(place)
        return names.index(end) + 1

    def read_lines(self, text):
        rows, names, at, told, kind = [], [], [], None, None
        for start, line in self.lines(text):
            fields = self.fields(start, line)
            if not fields:
                continue
            place, first = fields[0]
            if self.word(first, b"junctions"):
                number = self.number(fields[1][1]) if len(fields) == 2 else None
                if number is None or told is not None:
                    raise Refused(24, place)
                told = number
                continue
            struck = self.word(first, b"struck")
            row = self.row(place, struck, fields[1:] if struck else fields)
            if row is None:
                continue
            ends = fields[1:3] if struck else fields[:2]
            kind = self.kind(kind, row[0], ends[0][0])
            self.kind(kind, row[1], ends[1][0])
            if len(rows) == MOST_ROWS:
                raise Refused(2, place)
            left = self.meet(names, at, ends[0][0], row[0])
            right = self.meet(names, at, ends[1][0], row[1])
            rows.append((left, right, row[2], row[3], struck, place))
        return self.count(told, rows, names), rows, names, at

    def count(self, told, rows, names):
        """Rule 9."""
        if told is not None:
            return told
        return len(names) or max([max(r[:2]) for r in rows], default=0)

    def read(self, text):
        if len(text) > MOST_BYTES:
            return "refused", 12, MOST_BYTES
        try:
            return ("read",) + self.read_lines(text)
        except Refused as refused:
            return ("refused",) + refused.args


def line_of(text, place):
    """The line of a place, counted from 1: LF, CR or both end a line."""
    return 1 + len(re.findall(rb"\r\n|\r|\n", text[:place]))
