"""The console on files with names of junctions, as planners and spreadsheets write them.

usage: names.py STAR..   the program, with words before it. Ends in one line 'N passed, M failed'
Every command says of a file with names what it says of the same table with numbers, with the names
in place of the numbers; a file that a command changes keeps its names, comments and lines.
"""
import csv
import io
import json
import os
import random
import re
import subprocess
import sys
import tempfile

STAR = sys.argv[1:]
HERE = os.path.dirname(os.path.abspath(__file__))
sys.path.insert(0, os.path.join(HERE, "tablefile"))
from reader import Reader  # noqa: E402
from run import random_text  # noqa: E402

NAMES = ["Rathaus", "Markt", "Am Tor", "Münsterplatz"]
ROWS = [(1, 2, 5, 0), (2, 3, 3, 1), (3, 4, 5, 1), (1, 4, 4, 1), (1, 3, 6, 0)]
counts = {True: 0, False: 0}
folder = tempfile.TemporaryDirectory()


def check(what, holds, shown=""):
    counts[bool(holds)] += 1
    if not holds:
        print("names", what, "failed:", str(shown)[:600])


def star(text, command, *words):
    path = os.path.join(folder.name, "plan.csv")
    with open(path, "wb") as file:
        file.write(text)
    done = subprocess.run(STAR + [command, *words[:words.index("FILE")], path,
                                  *words[words.index("FILE") + 1:]], capture_output=True)
    return done.stdout, done.stderr.replace(path.encode(), b"FILE"), done.returncode


def blanks(rows, names):
    """A file that a planner types: blanks part the fields, so that no name has one."""
    end = (lambda v: names[v - 1].replace(" ", "_")) if names else str
    return "".join("%s  %s %d %d # %d\n" % (end(a), end(b), p, m, k)
                   for k, (a, b, p, m) in enumerate(rows)).encode()


def sheet(rows, names):
    """What a spreadsheet saves: a byte order mark, semicolons, quotes, a header, CR and LF."""
    end = (lambda v: '"%s"' % names[v - 1]) if names else str
    lines = ["%s;%s;%d;%s\r\n" % (end(a), end(b), p, "x" if m else "") for a, b, p, m in rows]
    return b"\xef\xbb\xbf" + ('"From";"To";"Price";"Mark"\r\n' + "".join(lines)).encode()


def commas(rows, names):
    end = (lambda v: names[v - 1]) if names else str
    lines = ["%s, %s,%d%s\n" % (end(a), end(b), p, ",yes" if m else "") for a, b, p, m in rows]
    return ("# a plan\nfrom,to,price,mark\n\n" + "".join(lines)).encode()


FORMS = {"blanks": blanks, "sheet": sheet, "commas": commas}

# What each command is asked, a junction as 'J2'.
ASKED = [["check", "FILE"], ["build", "FILE"], ["explain", "FILE"], ["explain", "--all", "FILE"],
         ["explain", "FILE", "3"], ["digs", "FILE"], ["digs", "--plan", "FILE"],
         ["quote", "FILE", "4", "9"], ["breaking", "FILE", "4"], ["stretch", "FILE", "J1", "J2"],
         ["outlets", "FILE", "J1", "3"], ["outlets", "FILE", "J1", "9"],
         ["districts", "FILE", "2", "5"], ["check", "--certificate", "FILE"],
         ["stretch", "FILE", "J1", "nowhere"], ["outlets", "FILE", "99", "1"]]


def shown(form, v):
    return NAMES[v - 1].replace(" ", "_") if form == "blanks" else NAMES[v - 1]


def named(form, text):
    """What the console says of numbers, said of names."""
    name = lambda v: shown(form, int(v))
    way = lambda m: " - ".join(map(name, m.group().split("-")))
    text = re.sub(r"(?<=\()\d(-\d)+(?=[,)])|(?<=: )\d-\d(?=, price)", way, text)
    text = re.sub(r"(?<=junction )([1-4])\b", lambda m: name(m.group()), text)
    pair = lambda m: "%s and %s" % tuple(map(name, m.groups()))
    group = lambda m: ", ".join(map(name, m.group().split(", ")))
    text = re.sub(r"(?<=between )(\d) and (\d)", pair, text)
    text = re.sub(r"(?<=^  junctions )[\d, ]+$", group, text, flags=re.M)
    return re.sub(r"^(\d) (\d) (\d) (\d)$", lambda m: "%s %s - %s %s" % (
        m.group(1), name(m.group(2)), name(m.group(3)), m.group(4)), text, flags=re.M)


def asked(form, rows):
    text, plain = FORMS[form](rows, NAMES), FORMS[form](rows, None)
    for words in ASKED:
        by = [shown(form, int(w[1])) if re.fullmatch(r"J\d", w) else w for w in words]
        number = [w[1] if re.fullmatch(r"J\d", w) else "99" if w == "nowhere" else w for w in words]
        out, err, status = star(text, *by)
        out2, err2, status2 = star(plain, *number)
        path = os.path.join(folder.name, "plan.csv").encode()
        said, meant = [o.replace(path, b"FILE").decode() for o in (out + err, out2 + err2)]
        meant = named(form, meant)
        if "nowhere" in words:
            meant = meant.replace("junction 99", "junction nowhere")
        check("%s %s" % (form, " ".join(words)), (said, status) == (meant, status2), said + meant)


def objects(form):
    """The names stand in every object; numbers are those of the first lines that name them."""
    own = [shown(form, v) for v in range(1, 5)]
    for words in ASKED[:13]:
        if "--certificate" in words:
            continue
        by = [shown(form, int(w[1])) if re.fullmatch(r"J\d", w) else w for w in words]
        out = star(FORMS[form](ROWS, NAMES), *by[:1], "--json", *by[1:])[0]
        check("%s --json %s" % (form, words), json.loads(out).get("names") == own, out)


def pictures(form):
    text = FORMS[form](ROWS, NAMES)
    for words in (["draw", "FILE"], ["dot", "FILE"], ["page", "--static", "FILE"]):
        out = star(text, *words)[0].decode()
        check("%s %s" % (form, words[0]), all(shown(form, v) in out for v in range(1, 5)), out)
    out = star(text, "page", "FILE")[0].decode()
    check(form + " page", status_sound(out), out[:200])


def status_sound(out):
    return out.startswith("<!DOCTYPE html>") or out.startswith("<!doctype html>")


def reading(text):
    """The rows of a text with the bytes of their names, by the reader written from the rules."""
    read = Reader().read(text)
    if read[0] != "read":
        return None
    names = read[3]
    end = lambda v: names[v - 1] if names else v
    return [(end(a), end(b), p, m, struck) for a, b, p, m, struck, _ in read[2]]


def changes(form):
    """Each command that changes the file: what is read of it, and the lines that stay."""
    text = FORMS[form](ROWS, NAMES)
    was = reading(text)
    own = [shown(form, v).encode() for v in range(1, 5)]

    def changed(what, words, rows, lines=1, text=text):
        out, err, status = star(text, *words)
        kept = len(set(out.splitlines(True)) & set(text.splitlines(True)))
        check("%s %s" % (form, what), status == 0 and reading(out) == rows, out + err)
        least_kept = len(set(text.splitlines(True))) - lines
        check("%s %s: lines" % (form, what), kept >= least_kept, out)
        return out

    def row(i, **new):
        left, right, price, mark, struck = was[i]
        return (left, right, new.get("price", price), new.get("mark", mark),
                new.get("struck", struck))

    out = row(2, mark=0, struck=True)
    least = [row(0, mark=1), was[1], row(2, mark=0)] + was[3:]
    three = [row(0, mark=1), row(1, mark=0), row(2, mark=0), was[3], row(4, mark=1)]
    changed("mark", ["mark", "FILE", "1", "5"], [row(0, mark=1)] + was[1:4] + [row(4, mark=1)], 2)
    changed("unmark", ["unmark", "FILE", "2"], was[:1] + [row(1, mark=0)] + was[2:])
    changed("price", ["price", "FILE", "4", "-12"], was[:3] + [row(3, price=-12)] + was[4:])
    struck = changed("strike", ["strike", "FILE", "3"], was[:2] + [out] + was[3:])
    changed("unstrike", ["unstrike", "FILE", "3"], was, text=struck)
    check(form + " unstrike: bytes", star(struck, "unstrike", "FILE", "3")[0] == text)
    changed("merge", ["merge", "FILE"], was[:2] + was[3:], text=struck)
    changed("mend", ["mend", "FILE"], [row(0, mark=1), was[1], out] + was[3:], 1, text=struck)
    changed("build", ["build", "--table", "FILE"], least, 2)
    changed("outlets", ["outlets", "--table", "FILE", own[0].decode(), "3"], three, 4)
    changed("districts", ["districts", "--table", "FILE", "2", "5"], least, 2)
    changed("table", ["table", "FILE"], was, 0)
    added = was + [(own[1], own[3], 7, 0, False)]
    changed("add", ["add", "FILE", own[1].decode(), own[3].decode(), "7"], added, 0)
    changed("add by number", ["add", "FILE", "2", "4", "7"], added, 0)
    words = ["add", "FILE", own[1].decode(), "Neue Straße 7", "7"]
    changed("add a name", words, was + [(own[1], "Neue Straße 7".encode(), 7, 0, False)], 0)
    told = star(text, *words)[1]
    check(form + " add a name: told", b"is new: no other line names it." in told, told)
    for wrong in ("a;b", "a#b", 'a"b', "#", "a\nb"):
        out, err, status = star(text, "add", "FILE", own[0].decode(), wrong, "7")
        check("%s add %r" % (form, wrong), status in (2, 4) and out == b"", out + err)
    in_place(form, text, was)


def in_place(form, text, was):
    path = os.path.join(folder.name, "kept.csv")
    with open(path, "wb") as file:
        file.write(text)
    done = subprocess.run(STAR + ["mark", path, "1", "-o", path], capture_output=True)
    with open(path, "rb") as file:
        now = reading(file.read())
    check(form + " in place", done.returncode == 0 and [r[:3] for r in now] == [r[:3] for r in was])


def faults():
    """Twenty-two lines that cannot stand: twenty are told in order, and that there are more."""
    lines = ["From;To;Price", "Rathaus;Markt;5;x"]
    bad = ["a;b", "Markt;7;3", "Markt;Am Tor;5,50", "Markt;Am Tor;1.000", "Markt;Am Tor;5;50",
           ";b;5", "a;b;;x", "junctions;x", "a;b;5;1;1", "a;?;5", "struck;a;b"] * 2
    for k, line in enumerate(bad):
        lines += [line, "Markt;J%d;3" % k]
    text = "\n".join(lines).encode()
    out, err, status = star(text, "check", "FILE")
    told = err.decode().splitlines()
    places = [int(line.split(":")[1]) for line in told[:-1]]
    check("twenty-two lines", (status, out, places) == (3, b"", list(range(3, 43, 2))), err)
    check("twenty-two lines: more", told[-1] == "FILE: more lines cannot stand", err)
    for k, said in enumerate((
            "is not a trench", "'7' is a number, and 'Rathaus' in line 2 a name",
            "'5,50' is not a price", "'1.000' is not a price", "'50' is not a mark",
            "'' is not a junction", "'' is not a price", "is not a line 'junctions N'",
            "is not a trench", "'?' is not a junction", "is not a trench")):
        check("twenty-two lines: %s" % said, said in told[k], told[k])


def which():
    """Two files of one table may meet the names in another order and direction."""
    first, second = sheet(ROWS, NAMES), commas([(b, a, p, m) for a, b, p, m in ROWS], NAMES)
    path = os.path.join(folder.name, "second.csv")
    with open(path, "wb") as file:
        file.write(second)
    out, err, status = star(first, "which", "FILE", path)
    check("which", status == 0 and b"both cost 12" in out, out + err)
    with open(path, "wb") as file:
        file.write(commas(ROWS, NAMES[:3] + ["Hof"]))
    out, err, status = star(first, "which", "FILE", path)
    check("which, another name", status == 3 and "(Am Tor - Hof, price 5)" in err.decode(), err)
    with open(path, "wb") as file:
        file.write(commas(ROWS, None))
    check("which, numbers", star(first, "which", "FILE", path)[2] == 3)


def spreadsheets():
    """What --csv writes is what Python's csv module reads, and the same table to every command."""
    rows = [(a, b, p, m) for a, b, p, m in ROWS]
    for form, make in FORMS.items():
        for names in (NAMES, None):
            text = make(rows, names)
            out, err, status = star(text, "table", "--csv", "FILE")
            check("csv of %s" % form, status == 0 and reading(out) == reading(text), out + err)
            cells = list(csv.reader(io.StringIO(out.decode("utf-8-sig")), delimiter=";"))
            check("csv of %s: header" % form, cells[0] == ["left", "right", "price", "mark"], cells)
            meant = [[str(a), str(b), str(p), str(m)] for a, b, p, m in (
                (*(e.decode() if names else e for e in r[:2]), *r[2:4]) for r in reading(text))]
            check("csv of %s: rows" % form, cells[2:] == meant, cells)
            check("csv of %s: again" % form, star(out, "table", "--csv", "FILE")[0] == out)
    struck = star(sheet(rows, NAMES), "strike", "FILE", "3")[0]
    out = star(struck, "table", "--csv", "FILE")[0]
    check("csv of a struck trench", reading(out) == reading(struck), out)
    done = star(b"A;B;5;x\n", "table", "--csv", "FILE", "-o", os.path.join(folder.name, "plan.csv"))
    check("csv over its file", done[2] == 4, done)


def lost():
    """A name that goes with a struck line, and one that is nearly there."""
    text = b"A;B;5;x\nstruck;B;C;4\n"
    out, err, status = star(text, "merge", "FILE")
    check("merge: a name", (out, status) == (b"junctions;3\nA;B;5;x\n", 0), out)
    check("merge: told", b"No line names junction C any more." in err, err)
    out = star(b"A;B;5;x\n", "outlets", "FILE", "b", "1")[0]
    check("nearly", b"there is no junction b; the table has 2, one of them B." in out, out)


def largest():
    """255 junctions with names and 1,024 trenches: the totals are those of the same table with
    numbers."""
    names, pick = ["Straße %d, Haus ä" % v for v in range(255)], random.Random(5)
    pairs = {(pick.randrange(max(1, v - 6), v), v) for v in range(2, 256)}
    while len(pairs) < 1024:
        u = pick.randrange(1, 255)
        pairs.add((u, pick.randrange(u + 1, 256)))
    rows = [(a, b, pick.randrange(999), 0) for a, b in sorted(pairs)]
    totals = [star(sheet(rows, by), "digs", "FILE")[0].splitlines()[-1] for by in (names, None)]
    check("largest", totals[0] == totals[1] and totals[0].startswith(b"Total "), totals)
    out = star(sheet(rows, names), "build", "--table", "FILE")[0]
    check("largest built", star(out, "check", "FILE")[2] == 0)
    out, err, status = star(out, "add", "FILE", "1", "255", "3")
    check("largest full", status == 2 and b"all 1024 trenches are in use" in err, err)


def edited(rows, command, i, pick):
    """A change of row i: the command's words, and the rows that are to be read after it."""
    left, right, price, mark, struck = rows[i]
    if command == "strike":
        return [str(i + 1)], (left, right, price, 0, True)
    if command == "price":
        price = pick.choice([-12, 0, 2147483647])
        return [str(i + 1), str(price)], (left, right, price, mark, struck)
    return [str(i + 1)], (left, right, price, int(command == "mark"), struck)


def random_edits(count):
    """Random files, their fields parted in all ways, with quotes and headers: every change is read
    back as it is meant, and the other lines stay as they were."""
    pick, done = random.Random(11), 0
    while done < count:
        text = random_text(pick)
        rows = reading(text) or []
        used = [i for i in range(len(rows)) if not rows[i][4]]
        if not used:
            continue
        i, command = pick.choice(used), pick.choice(["strike", "price", "mark", "unmark"])
        words, row = edited(rows, command, i, pick)
        out, err, status = star(text, command, "FILE", *words)
        meant = rows[:i] + [row] + rows[i + 1:]
        told = (text, out, err)
        check("%s of a random file" % command, status == 0 and reading(out) == meant, told)
        others = re.split(rb"\r\n|\r|\n", text)
        kept = [line for line in re.split(rb"\r\n|\r|\n", out) if line in others]
        check("%s: other lines" % command, len(kept) >= len(others) - 1, (text, out))
        out, err, status = star(text, "merge", "FILE")
        meant = [row for row in rows if not row[4]]
        check("merge of a random file", status == 0 and reading(out) == meant, (text, out, err))
        read = [Reader().read(t)[1] for t in (text, out)]
        check("merge: junctions", read[0] == read[1], (text, out))
        done += 1


def main():
    for form in FORMS:
        asked(form, ROWS)
        asked(form, [(a, b, p, int(k < 3)) for k, (a, b, p, _) in enumerate(ROWS)])
        asked(form, [(a, b, p, int(k in (0, 1, 4))) for k, (a, b, p, _) in enumerate(ROWS)])
        asked(form, [(1, 2, 5, 1), (1, 2, 5, 1), (3, 4, 5, 1)])
        asked(form, [(1, 2, 5, 1), (3, 4, 5, 1)])
        objects(form)
        pictures(form)
        changes(form)
    random_edits(150)
    faults()
    which()
    lost()
    spreadsheets()
    largest()
    print("%d passed, %d failed" % (counts[True], counts[False]))
    return 1 if counts[False] else 0


sys.exit(main())
