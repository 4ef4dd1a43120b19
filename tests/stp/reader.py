"""A plain reader of SteinLib STP texts, for comparison: the text is cut into lines of words first, and each line is then held to its form.

    read(text)      Read(n, rows) or Refused(number, place, cause)
    printed(answer) what readstp prints
    packed(answer)  the sixteen bytes of star_import's answer
"""
import re
from typing import NamedTuple

MAX_TEXT, MAX_NUMBER, MIN_PRICE, MAX_PRICE, MAX_JUNCTIONS, MAX_ROWS = 65536, 4294967295, -2147483648, 2147483647, 255, 1024


class Read(NamedTuple):
    n: int
    rows: list  # (left, right, weight) from the top


class Refused(NamedTuple):
    number: int
    place: int
    cause: str  # in words, so that a sample can be held to have every cause


class Broken(Exception):
    """The layout is broken at a place."""

    def __init__(self, place, cause):
        super().__init__(place, cause)
        self.place, self.cause = place, cause


def lines_of(text):
    """The lines that have words, each a list of (place, word)."""
    lines, start = [], 0
    for line in re.split(rb"[\n\r]", text):
        words = [(start + w.start(), w.group()) for w in re.finditer(rb"[^ \t]+", line)]
        if words:
            lines.append(words)
        start += len(line) + 1
    return lines


def value(word):
    """The number that a word stands for, or None."""
    if not word.isdigit():
        return None
    digits = word.lstrip(b"0") or b"0"
    return int(digits) if len(digits) <= 10 and int(digits) <= MAX_NUMBER else None


def price(word):
    """The price that a word stands for, or None."""
    if not re.fullmatch(rb"-?[0-9]+", word):
        return None
    digits = word.lstrip(b"-").lstrip(b"0") or b"0"
    if len(digits) > 10:
        return None
    w = -int(digits) if word.startswith(b"-") else int(digits)
    return w if MIN_PRICE <= w <= MAX_PRICE else None


def names(word, keyword):
    return word.upper() == keyword.upper()


class Layout:
    def __init__(self, text):
        self.lines, self.end = lines_of(text), len(text)
        self.graph = None

    def first(self, k):
        """The place of line k's first word; the text's length where there is no such line."""
        return self.lines[k][0][0] if k < len(self.lines) else self.end

    def opens(self, k, keyword):
        return k < len(self.lines) and names(self.lines[k][0][1], keyword)

    def hold(self, k, form, *tests):
        """Line k has one word for each test and no more; the words are judged from left to right."""
        words = self.lines[k] if k < len(self.lines) else []
        for i, test in enumerate(tests):
            if i == len(words):
                after = "end of text" if k + 1 >= len(self.lines) else "next line"
                raise Broken(self.first(k + 1), f"{form}: word {i + 1} missing, {after}")
            if not test(words[i][1]):
                raise Broken(words[i][0], f"{form}: word {i + 1} wrong")
        if len(words) > len(tests):
            raise Broken(words[len(tests)][0], f"{form}: a word too many")
        return [w for _, w in words]

    def numbers(self, k, keyword, *kinds):
        """The numbers on a line of a keyword and numbers of these kinds, each `value` or `price`."""
        words = self.hold(k, keyword, lambda w: names(w, keyword.encode()), *[lambda w, kind=kind: kind(w) is not None for kind in kinds])
        return [kind(w) for kind, w in zip(kinds, words[1:])]

    def read(self):
        if not self.lines:
            raise Broken(self.end, "no word")
        if not self.opens(0, b"33D32945"):
            raise Broken(self.first(0), "first word wrong")
        k = 1
        while not self.opens(k, b"EOF"):
            k = self.section(k)
        if self.graph is None:
            raise Broken(self.first(k), "EOF without a Graph")
        self.hold(k, "EOF", lambda w: True)
        if k + 1 < len(self.lines):
            raise Broken(self.first(k + 1), "a line after EOF")
        return self.graph

    def section(self, k):
        """The section that begins at line k; gives the line after its END."""

        def name(word):
            return self.graph is None or not names(word, b"Graph")

        words = self.hold(k, "SECTION", lambda w: names(w, b"SECTION"), name)
        if names(words[1], b"Graph"):
            return self.graph_lines(k + 1)
        for j in range(k + 1, len(self.lines)):
            if len(self.lines[j]) == 1 and self.opens(j, b"END"):
                return j + 1
        raise Broken(self.end, "skipped section: no END")

    def graph_lines(self, k):
        n, = self.numbers(k, "Nodes", value)
        edges, = self.numbers(k + 1, "Edges", value)
        k, rows = k + 2, []
        while self.opens(k, b"E"):
            rows.append(tuple(self.numbers(k, "E", value, value, price)))
            k += 1
        self.hold(k, "END", lambda w: names(w, b"END"))
        self.graph = n, edges, rows
        return k + 1


def read(text):
    if len(text) > MAX_TEXT:
        return Refused(12, MAX_TEXT, "too long")
    try:
        n, edges, lines = Layout(text).read()
    except Broken as b:
        return Refused(12, b.place, b.cause)
    if len(lines) != edges:
        return Refused(13, 0, "more E lines" if len(lines) > edges else "fewer E lines")
    if not 1 <= n <= MAX_JUNCTIONS:
        return Refused(1, 0, "Nodes 0" if n == 0 else "Nodes above 255")
    if len(lines) > MAX_ROWS:
        return Refused(2, 0, "too many rows")
    rows = [(a if a <= 255 else 0, b if b <= 255 else 0, w) for a, b, w in lines]
    for i, (a, b, _) in enumerate(rows, 1):
        if not (1 <= a <= n and 1 <= b <= n):
            return Refused(4, i, "an end that is no junction")
        if a == b:
            return Refused(4, i, "equal ends")
    pairs = [frozenset((a, b)) for a, b, _ in rows]
    for i, pair in enumerate(pairs, 1):
        if pairs.index(pair) + 1 < i:
            return Refused(15, i, "a repeated pair")
    return Read(n, rows)


def printed(answer):
    if isinstance(answer, Refused):
        return b"Refused %d %d\n" % (answer.number, answer.place)
    return b"%d %d\n" % (answer.n, len(answer.rows)) + b"".join(b"%d %d %d\n" % row for row in answer.rows)


def packed(answer):
    if isinstance(answer, Refused):
        return bytes([0, answer.number]) + bytes(6) + answer.place.to_bytes(8, "little")
    return b"\1\0" + answer.n.to_bytes(2, "little") + len(answer.rows).to_bytes(2, "little") + bytes(10)
