"""STP texts for the tests, the same ones every time: valid ones of many shapes, damaged ones, the limits, the deepest.

    sample()          a list of Text(kind, text)
    missing(sample)   what the sample lacks: kinds, refusal numbers, causes
    generate.py FILE  writes the sample for import_test: for each text its length (four bytes, least significant first), its bytes,
                      the sixteen bytes of the answer, and, where it is read, the left, right and weight columns of its rows
"""
import random
import sys
from typing import NamedTuple

from known import KNOWN
from reader import MAX_PRICE, MAX_TEXT, MIN_PRICE, Read, packed, read

SEED = 1024


class Text(NamedTuple):
    kind: str
    text: bytes


# What may stand in a section that is skipped.
SKIPPED_NAMES = [b"Comment", b"Terminals", b"Coordinates", b"Presolve", b"MaximumDegrees", b"END", b"end", b"EOF", b"SECTION", b"Graphs", b"Grap",
                 b"33D32945", b"1", b"E", b"\xc3\xa9", b"\x00", b"Nodes"]
SKIPPED_LINES = [b"Name \"A street\"", b"Creator x", b"Terminals 2", b"T 1", b"DD 1 80 40", b"END x", b"x END", b"ENDE", b"EN D", b"EOF", b"EOF x",
                 b"SECTION Graph", b"SECTION", b"SECTION a b c", b"Nodes 3", b"E 1 2 3", b"END END", b"end.", b"-1 4294967296 0x1", b"\xff\xfe\x80",
                 b"\x00", b"a\x00b", b"33D32945", b"\x0b\x0c", b"Graph"]
ODD_WORDS = [b"END", b"EOF", b"SECTION", b"Graph", b"Nodes", b"Edges", b"E", b"33D32945", b"0", b"1", b"7", b"-1", b"-", b"--1", b"+1", b"1.5", b"1e3", b"0x1",
             b"4294967295", b"4294967296", b"9" * 40, b"x", b"\x00", b"\xff", b"1\x00", b"\xc2\xa01", b"EN", b"ENDE", b"EE", b"\x0b", b"1,"]


class Maker:
    def __init__(self, seed):
        self.r = random.Random(seed)

    def case(self, word):
        """The word in its own case, the other one, or a mixed one."""
        how = self.r.randrange(4)
        if how == 0:
            return word.lower()
        if how == 1:
            return word.upper()
        return word if how == 2 else bytes(c ^ 32 if chr(c).isalpha() and self.r.random() < 0.5 else c for c in word)

    def number(self, x):
        how = self.r.randrange(12)
        zeros = b"" if how else b"0" * self.r.choice([1, 2, 9, 10, 11, 19, 20, 40])
        return b"-" * (x < 0) + zeros + b"%d" % abs(x)

    def price(self):
        return self.r.choice([self.r.randrange(20), self.r.randrange(2 ** 31), 0, 2 ** 31 - 1, -self.r.randrange(20), -self.r.randrange(2 ** 31), -1, -2 ** 31])

    def rows(self, n, m, repeats=False):
        """Rows with ends of 1 to n; no pair twice, unless repeats may come or there are fewer pairs than rows."""
        if n == 1:
            return []
        rows, pairs = [], set()
        repeats = repeats or m > n * (n - 1) // 2
        while len(rows) < m:
            a = self.r.randint(1, n)
            b = self.r.randint(1, n - 1)
            b += b >= a
            if repeats or frozenset((a, b)) not in pairs:
                pairs.add(frozenset((a, b)))
                rows.append((a, b, self.price()))
        return rows

    def graph(self, n, rows, edges=None):
        """The lines of Graph, each a list of words."""
        lines = [[self.case(b"SECTION"), self.case(b"Graph")], [self.case(b"Nodes"), self.number(n)],
                 [self.case(b"Edges"), self.number(len(rows) if edges is None else edges)]]
        return lines + [[self.case(b"E")] + [self.number(x) for x in row] for row in rows] + [[self.case(b"END")]]

    def skipped(self):
        lines = [[self.case(b"SECTION"), self.r.choice(SKIPPED_NAMES)]]
        lines += [self.r.choice(SKIPPED_LINES).split(b" ") for _ in range(self.r.choice([0, 0, 1, 2, 5]))]
        return lines + [[self.case(b"END")]]

    def lines(self, n, rows, edges=None):
        """The lines of a valid text."""
        lines = [[self.case(b"33D32945")] + self.r.choice([[], [b"STP", b"File,", b"STP", b"Format", b"Version", b"1.0"], [b"SECTION", b"Graph"], [b"\xff\x00"]])]
        for _ in range(self.r.choice([0, 0, 1, 2])):
            lines += self.skipped()
        lines += self.graph(n, rows, edges)
        for _ in range(self.r.choice([0, 0, 1, 2])):
            lines += self.skipped()
        return lines + [[self.case(b"EOF")]]

    def text(self, lines):
        """The lines as bytes: one of several line ends and blanks, or a mixture of all."""
        ends = self.r.choice([[b"\n"], [b"\n"], [b"\r\n"], [b"\r"], [b"\n", b"\r", b"\r\n", b"\n\n", b"\n \t\r", b"\n\r"]])
        blanks = self.r.choice([[b" "], [b" "], [b"\t"], [b" ", b"\t", b"  ", b" \t "]])
        sides = self.r.choice([[b""], [b"", b" ", b"\t", b"  "]])
        out = bytearray(self.r.choice([b"", b"", b"", b"\n", b" \r\n\t"]))
        for line in lines:
            out += self.r.choice(sides) + line[0]
            for word in line[1:]:
                out += self.r.choice(blanks) + word
            out += self.r.choice(sides) + self.r.choice(ends)
        if self.r.randrange(4) == 0:
            out = out.rstrip(b"\r\n \t")
        return bytes(out)

    def small(self):
        n = self.r.choice([1, 2, 3, 4, 5, 10, 254, 255])
        return n, self.rows(n, min(n * (n - 1) // 2, self.r.choice([0, 1, 2, 3, 5, 8])))

    def small_lines(self):
        return self.lines(*self.small())


# ---- damage

def byte_removed(k, r, t):
    return t[:k] + t[k + 1:]


def byte_doubled(k, r, t):
    return t[:k + 1] + t[k:]


def bytes_swapped(k, r, t):
    return t[:k] + t[k + 1:k + 2] + t[k:k + 1] + t[k + 2:]


def byte_changed(k, r, t):
    return t[:k] + bytes([r.randrange(256)]) + t[k + 1:]


def byte_inserted(k, r, t):
    return t[:k] + bytes([r.choice(b"019aAzZ .-\t\n\r\x0b\x0c\x1a\x7f")]) + t[k:]


def high_byte(k, r, t):
    return t[:k] + bytes([r.randrange(128, 256)]) + t[k:]


def nul_byte(k, r, t):
    return t[:k] + b"\0" + t[k + r.randrange(2):]


BYTE_DAMAGE = [byte_removed, byte_doubled, bytes_swapped, byte_changed, byte_inserted, high_byte, nul_byte]


def spot(r, lines):
    i = r.randrange(len(lines))
    return i, r.randrange(len(lines[i]))


def word_removed(r, lines):
    i, j = spot(r, lines)
    del lines[i][j]
    if not lines[i]:
        del lines[i]


def word_doubled(r, lines):
    i, j = spot(r, lines)
    lines[i].insert(j, lines[i][j])


def words_swapped(r, lines):
    i, j = spot(r, lines)
    k = r.randrange(len(lines[i]))
    lines[i][j], lines[i][k] = lines[i][k], lines[i][j]


def word_inserted(r, lines):
    i, j = spot(r, lines)
    lines[i].insert(j + r.randrange(2), r.choice(ODD_WORDS))


def word_replaced(r, lines):
    i, j = spot(r, lines)
    lines[i][j] = r.choice(ODD_WORDS)


def line_removed(r, lines):
    del lines[r.randrange(len(lines))]


def line_doubled(r, lines):
    i = r.randrange(len(lines))
    lines.insert(i, list(lines[i]))


def lines_swapped(r, lines):
    i, j = r.randrange(len(lines)), r.randrange(len(lines))
    lines[i], lines[j] = lines[j], lines[i]


def lines_joined(r, lines):
    i = r.randrange(len(lines) - 1)
    lines[i] += lines.pop(i + 1)


def line_broken(r, lines):
    long = [i for i, line in enumerate(lines) if len(line) > 1]
    i = r.choice(long)
    j = r.randrange(1, len(lines[i]))
    lines.insert(i + 1, lines[i][j:])
    del lines[i][j:]


def line_inserted(r, lines):
    lines.insert(r.randrange(len(lines) + 1), r.choice(SKIPPED_LINES).split(b" "))


LINE_DAMAGE = [word_removed, word_doubled, words_swapped, word_inserted, word_replaced, line_removed, line_doubled, lines_swapped, lines_joined,
               line_broken, line_inserted]


# ---- the parts of the sample

def valid(make):
    for _ in range(300):
        yield Text("valid", make.text(make.small_lines()))
    for n, m in [(255, 254), (255, 1023), (255, 1024), (46, 1023), (46, 1024), (100, 700), (1, 0), (255, 0)]:
        for _ in range(3):
            lines = [[b"33D32945"]] + make.graph(n, make.rows(n, m)) + [[b"EOF"]]
            yield Text("valid, large", b"\n".join(b" ".join(line) for line in lines))


def repeated(make):
    """Pairs that come again, once or more, in either direction; some with an end that is no junction."""
    for _ in range(120):
        n = make.r.choice([2, 3, 4, 10, 255])
        rows = make.rows(n, make.r.choice([1, 2, 5, 8]), True)
        for _ in range(make.r.choice([0, 1, 1, 2])):
            a, b, _ = make.r.choice(rows)
            rows.insert(make.r.randint(0, len(rows)), make.r.choice([(a, b, 1), (b, a, 1), (b, a, -1), (a, b, 2147483647)]))
        if make.r.randrange(6) == 0:
            rows.insert(make.r.randint(0, len(rows)), (1, 1, 1))
        yield Text("repeated pairs", make.text(make.lines(n, rows)))
    for m in [2, 64, 65, 1023, 1024]:
        for last in [0, (m - 2) // 2, m - 2]:
            rows = make.rows(255, m - 1)
            a, b, w = rows[last]
            lines = [[b"33D32945"]] + make.graph(255, rows + [(b, a, w)]) + [[b"EOF"]]
            yield Text("repeated pairs", b"\n".join(b" ".join(line) for line in lines))


def damaged(make):
    for damage in BYTE_DAMAGE:
        for _ in range(60):
            t = make.text(make.small_lines())
            for _ in range(make.r.choice([1, 1, 1, 2])):
                t = damage(make.r.randrange(len(t)), make.r, t)
            yield Text(damage.__name__, t)
    for damage in LINE_DAMAGE:
        for _ in range(60):
            lines = make.small_lines()
            for _ in range(make.r.choice([1, 1, 1, 2])):
                damage(make.r, lines)
            yield Text(damage.__name__, make.text(lines))
    for _ in range(20):
        yield Text("byte order mark", b"\xef\xbb\xbf" + make.text(make.small_lines()))
        yield Text("byte order mark", make.r.choice([b"\xff\xfe", b"\xfe\xff", b"\n\xef\xbb\xbf"]) + make.text(make.small_lines()))


def cut_short(make):
    """Two texts cut at each of their places, with and without blanks after the cut."""
    one = b"33D32945 x\nSECTION a\nEND\nSECTION Graph\nNodes 2\nEdges 1\nE 1 2 3\nEND\nSECTION b\nx\nEND\nEOF\n"
    for k in range(len(one) + 1):
        yield Text("cut short", one[:k])
        yield Text("cut short", one[:k] + b"\r\n \t")
    other = make.text(make.lines(3, make.rows(3, 3)))
    for k in range(len(other)):
        yield Text("cut short", other[:k])


def sections(make):
    for _ in range(20):
        one = [[b"33D32945"]] + make.graph(*make.small())
        yield Text("second Graph", make.text(one + make.skipped() + make.graph(*make.small()) + [[b"EOF"]]))
        yield Text("second Graph", make.text(one + [[b"Section", make.case(b"Graph"), b"x"]]))
        yield Text("no Graph", make.text([[b"33D32945"]] + make.skipped() + [[b"EOF"] + make.r.choice([[], [b"x"]])]))
        yield Text("word after EOF", make.text(one + [[b"EOF", make.r.choice(ODD_WORDS)]]))
        yield Text("word after EOF", make.text(one + [[b"EOF"], [make.r.choice(ODD_WORDS)]]))
        yield Text("no END", make.text([[b"33D32945"]] + make.skipped()[:-1] + one[1:-1]))
        yield Text("no END", make.text(one[:-1] + make.r.choice([[], [[b"EOF"]], make.skipped()])))
        yield Text("section without a name", make.text(one + [[b"SECTION"]] + make.r.choice([[], [[b"END"]], [[b"Graph"]]])))
        yield Text("END with a word", make.text(one[:-1] + [[b"END", make.r.choice(ODD_WORDS)]] + [[b"EOF"]]))
    names = SKIPPED_NAMES + ODD_WORDS
    for name in names:
        if name != b"Graph":
            yield Text("section names", b"33D32945\nSECTION " + name + b"\n" + name + b" x\nEND\nSECTION Graph\nNodes 1\nEdges 0\nEND\nEOF\n")


def keyword_bits(make):
    """One bit of one byte of a keyword changed: another word, or the other case of a letter."""
    text = b"33D32945 !\nSECTION !\nEND\nSECTION Graph\nNodes 2\nEdges 1\nE 1 2 3\nEND\nEOF\n"
    for k, c in enumerate(text):
        if k < 8 or chr(c).isalpha():
            for bit in [1, 16, 32, 64, 128]:
                yield Text("keyword bits", text[:k] + bytes([c ^ bit]) + text[k + 1:])


def numbers(make):
    """Each number of a text at its limits, and in forms that are no numbers."""
    values = [b"0", b"1", b"2", b"254", b"255", b"256", b"257", b"511", b"512", b"1023", b"1024", b"1025", b"65535", b"65536", b"65537", b"2147483646",
              b"2147483647", b"2147483648", b"4294967294", b"4294967295", b"4294967296", b"4294967297", b"4294967551", b"42949672950", b"8589934593",
              b"9999999999", b"18446744073709551615", b"18446744073709551616", b"18446744073709551617", b"18446744073709551618", b"1" + b"0" * 39,
              b"4294967296" * 4, b"0" * 39 + b"1", b"0" * 40, b"0" * 30 + b"4294967295", b"0" * 30 + b"4294967296", b"0" * 5000 + b"2", b"9" * 5000,
              b"-1", b"-0", b"-007", b"-", b"--1", b"-+1", b"+-1", b"1-", b"-1-", b"- 1", b"-a", b"-1.5", b"\xe2\x88\x921", b"-255", b"-256", b"-2147483647",
              b"-2147483648", b"-2147483649", b"-4294967295", b"-4294967296", b"-4294967297", b"-18446744073709551615", b"-18446744073709551617",
              b"-" + b"0" * 30 + b"2147483648", b"-" + b"0" * 30 + b"2147483649", b"0" * 30 + b"2147483647", b"0" * 30 + b"2147483648",
              b"-" + b"0" * 5000 + b"2", b"-" + b"9" * 5000, b"+1", b"1.", b"1.0", b".5", b"1e0", b"0x1", b"1_0", b"1,0", b"1\x00", b"\xb2", b"\xd9\xa1", b"a", b"1a", b"/", b":", b"0/", b"0:"]
    for v in values:
        for k in range(5):
            words = [b"3", b"1", b"1", b"2", b"7"]
            words[k] = v
            yield Text("numbers", b"33D32945\nSECTION Graph\nNodes %b\nEdges %b\nE %b %b %b\nEND\nEOF\n" % tuple(words))


def orders(make):
    """Several causes at once, and each near its limit."""
    for n in [0, 1, 2, 255, 256, 4294967295]:
        for m in [0, 1, 2, 1023, 1024, 1025, 1026, 3000]:
            for off in [0, 1, -1]:
                if m + off < 0 or (m > 1026 and n > 2):
                    continue
                rows = make.rows(min(max(n, 2), 255), m)
                for _ in range(make.r.choice([0, 0, 1, 2])):
                    if m:
                        i = make.r.randrange(m)
                        a, b, w = rows[i]
                        rows[i] = make.r.choice([(0, b, w), (a, a, w), (a, 256, w), (a, b, -2147483648), (n + 1 if n < 4294967295 else 1, b, w)])
                        if make.r.randrange(8) == 0:
                            rows[i] = (a, b, make.r.choice([2147483648, 4294967295, -2147483649]))
                lines = [[b"33D32945"], [b"SECTION", b"Graph"], [b"Nodes", b"%d" % n], [b"Edges", b"%d" % (m + off)]]
                lines += [[b"E"] + [b"%d" % x for x in row] for row in rows] + [[b"END"], [b"EOF"]]
                if make.r.randrange(12) == 0:
                    lines.append([b"x"])
                yield Text("several causes", b"\n".join(b" ".join(line) for line in lines))
    for m in [1025, 1026, 1100, 2048, 2500, 4000, 5000]:
        rows = b"".join(b"E %d %d %d\n" % make.r.choice([(1, 2, 3), (2, 1, 0), (1, 1, 1), (0, 9, -2), (1, 2, -2147483648)]) for _ in range(m))
        for n, edges in [(2, m), (2, m), (256, m), (2, m - 1024), (2, 1024)]:
            yield Text("several causes", b"33D32945\nSECTION Graph\nNodes %d\nEdges %d\n%bEND\nEOF\n" % (n, edges, rows))
    for _ in range(300):
        n, rows = make.small()
        rows += make.rows(max(n, 2), 3)
        edges = len(rows) + make.r.choice([0] * 10 + [1, -1])
        for _ in range(make.r.choice([1, 2, 2])):
            i = make.r.randrange(len(rows))
            a, b, w = rows[i]
            rows[i] = make.r.choice([(0, b, w), (a, 0, w), (n + 1, b, w), (a, n + 1, w), (a, a, w), (256 + a, b, w), (a, a, -2147483648)] * 4 + [(a, b, 2147483648), (a, b, 4294967295), (a, b, -2147483649)])
        yield Text("several causes", make.text(make.lines(make.r.choice([n] * 12 + [0, 256, 65536 + n]), rows, edges)))


def lengths(make):
    """Texts of 65,535 bytes and more: of blanks, of one word, of lines, of sections; sound ones and broken ones."""
    one = b"33D32945\nSECTION Graph\nNodes 2\nEdges 1\nE 1 2 3\nEND\nEOF"
    head, tail = one[:9], one[9:]
    for size in [65534, 65535, 65536, 65537, 65538, 65600, 70000, 131072, 200000]:
        room = size - len(one)
        yield Text("lengths", one + b" " * room)
        yield Text("lengths", b"\n" * room + one)
        yield Text("lengths", one[:8] + b" " + b"x" * (room - 1) + one[8:])
        yield Text("lengths", head + b"SECTION x\n" + b"y z\n" * ((room - 14) // 4) + b" " * ((room - 14) % 4) + b"END\n" + tail)
        yield Text("lengths", head + tail.replace(b" 3", b" " + b"0" * room + b"3"))
        yield Text("lengths", one + b" " * (room - 1) + b"x")
        yield Text("lengths", b"x" + b" " * (size - 1))
        yield Text("lengths", b" " * size)
        yield Text("lengths", b"\0" * size)
        yield Text("lengths", one[:-3] + b"\r\n" * (room // 2) + b" " * (room % 2) + b"EOF")
        yield Text("lengths", one[:-3] + b" " * (room + 3))


def deep(make):
    """As many sections as the text has room for, and thousands of them before, around and after Graph."""
    graph, short = b"SECTION Graph\nNodes 1\nEdges 0\nEND\n", b"SECTION a\nEND\n"
    most = (MAX_TEXT - len(b"33D32945\n") - len(b"EOF")) // len(short)
    room = (MAX_TEXT - len(b"33D32945\n") - len(graph) - len(b"EOF")) // len(short)
    yield Text("deepest", b"33D32945\n" + short * most + b"EOF")
    yield Text("deepest", b"33D32945\n" + short * most)
    yield Text("deepest", b"33D32945\n" + short * room + graph + b"EOF")
    yield Text("deepest", b"33D32945\n" + graph + short * room + b"EOF")
    yield Text("deepest", b"33D32945\n" + short * (room // 2) + graph + short * (room - room // 2) + b"EOF")
    yield Text("deepest", b"33D32945\n" + graph + short * (room - 1) + b"SECTION graph\nEOF")
    yield Text("deepest", b"33D32945\n" + short * room + graph + b"EOFx")
    yield Text("deepest", b"33D32945\r" + b"section\tEND\rend\r" * 4000 + graph + b"eof")
    assert most == 4680 and room == 4677
    # as many lines, words and rows as there is room for
    room = MAX_TEXT - len(b"33D32945\n" + graph + b"EOF")
    yield Text("deepest", b"33D32945" + b" x" * (room // 2) + b"\n" + graph + b"EOF")
    yield Text("deepest", b"33D32945\nSECTION a\n" + b"x\n" * ((room - len(short)) // 2) + b"END\n" + graph + b"EOF")
    yield Text("deepest", b"33D32945\nSECTION a\n" + b"x " * ((room - len(short)) // 2 - 1) + b"\nEND\n" + graph + b"EOF")
    yield Text("deepest", b"33D32945\n" + graph + b"\n" * room + b"EOF")
    head, tail = b"33D32945\nSECTION Graph\nNodes 2\nEdges 8000\n", b"END\nEOF"
    yield Text("deepest", head + b"E 1 2 3\n" * 8000 + tail)
    yield Text("deepest", head + b"E 1 2 3\n" * 8001 + tail)
    yield Text("deepest", head + b"E 1 2 3\n" * 8000 + b"E 1 2 x\n" + tail)
    yield Text("deepest", head + b"E 1 2 3\n" * 8000 + b"END\nEO")


def known(make):
    for text, _ in KNOWN:
        yield Text("known", text)


PARTS = [known, valid, repeated, damaged, cut_short, sections, keyword_bits, numbers, orders, lengths, deep]
KINDS = ["known", "valid", "valid, large", "repeated pairs", "byte order mark", "cut short", "second Graph", "no Graph", "word after EOF", "no END", "section without a name",
         "END with a word", "section names", "keyword bits", "numbers", "several causes", "lengths", "deepest"] + [d.__name__ for d in BYTE_DAMAGE + LINE_DAMAGE]


def causes():
    """Every cause that the plain reader can name."""
    lines = {"SECTION": 2, "Nodes": 2, "Edges": 2, "E": 4, "END": 1, "EOF": 1}
    for form, count in lines.items():
        yield f"{form}: a word too many"
        for i in range(1, count + 1):
            if (form, i) not in [("E", 1), ("EOF", 1)]:
                yield f"{form}: word {i} wrong"
                yield f"{form}: word {i} missing, end of text"
                if i > 1:
                    yield f"{form}: word {i} missing, next line"
    yield from ["too long", "no word", "first word wrong", "EOF without a Graph", "a line after EOF", "skipped section: no END", "more E lines",
                "fewer E lines", "Nodes 0", "Nodes above 255", "too many rows", "an end that is no junction", "equal ends", "a repeated pair"]


def sample():
    return [text for part in PARTS for text in part(Maker(f"{SEED} {part.__name__}"))]


def missing(texts, answers):
    """What the sample lacks, in words; nothing if it has every kind of text, every refusal and every cause."""
    kinds = {t.kind for t in texts}
    refused = {a.number for a in answers if not isinstance(a, Read)}
    told = {a.cause for a in answers if not isinstance(a, Read)}
    lacks = [f"no text of the kind '{k}'" for k in KINDS if k not in kinds]
    lacks += [f"no text refused {n}" for n in [12, 13, 1, 2, 4, 15] if n not in refused]
    lacks += [f"no text refused for '{c}'" for c in causes() if c not in told]
    lacks += [f"a cause without a name in the list: '{c}'" for c in sorted(told - set(causes()))]
    lacks += [f"a kind without a name in the list: '{k}'" for k in sorted(kinds - set(KINDS))]
    if len(texts) < 1200:
        lacks.append("fewer than 1,200 texts")
    if sum(isinstance(a, Read) for a in answers) < 300:
        lacks.append("fewer than 300 texts that are read")
    prices = {w for a in answers if isinstance(a, Read) for _, _, w in a.rows}
    lacks += [f"no text read with a price of {w}" for w in [MIN_PRICE, MIN_PRICE + 1, -1, 0, 1, MAX_PRICE] if w not in prices]
    if sum(isinstance(a, Read) and any(w < 0 for _, _, w in a.rows) for a in answers) < 150:
        lacks.append("fewer than 150 texts that are read with a price below zero")
    return lacks


def pack(texts, answers, file):
    for t, a in zip(texts, answers):
        file.write(len(t.text).to_bytes(4, "little") + t.text + packed(a))
        if isinstance(a, Read):
            file.write(bytes(left for left, _, _ in a.rows) + bytes(right for _, right, _ in a.rows))
            file.write(b"".join(w.to_bytes(4, "little", signed=True) for _, _, w in a.rows))


if __name__ == "__main__":
    every = sample()
    with open(sys.argv[1], "wb") as out:
        pack(every, [read(t.text) for t in every], out)
