"""Tests of --json: a command writes one object, and the words can be put together from it.

usage: objects.py STAR..   Ends in one line 'N passed, M failed'.

Each command is asked twice, for words and for an object, about the stored cases and random
tables. The words made here from the object have to be the console's own, so that every number and
every trench of them stands in it; every key is one that the command's page names. Faults, file
names with any bytes, and output that goes to a file are asked about too.
"""
import glob
import json
import os
import random
import re
import subprocess
import sys
import tempfile

STAR = sys.argv[1:]
ROOT = os.path.dirname(os.path.dirname(os.path.abspath(__file__)))
COMMON = {"command", "file", "verdict", "status", "names"}
FAULT = {"refusal", "place", "line", "words"}
counts = {True: 0, False: 0}
seen = {}


def holds(name, value, *shown):
    """Counts a test."""
    counts[bool(value)] += 1
    if not value:
        print("objects", name, "failed:", *shown)


def star(*words, text=b""):
    """What the console writes to both streams, and its status."""
    done = subprocess.run(STAR + list(words), input=text, capture_output=True)
    return done.stdout, done.stderr, done.returncode


def trench(o):
    return "trench %d (%d-%d, price %d)" % (o["trench"], o["left"], o["right"], o["price"])


def row(o, ends=None):
    left, right = ends or (o["left"], o["right"])
    return "trench %d: %d-%d, price %d\n" % (o["trench"], left, right, o["price"])


def numbers(several, shown=None):
    """'trench 4' or 'trenches 4, 3', cut as the console cuts."""
    text = "trench" if len(several) == 1 else "trenches"
    text += " " + ", ".join(map(str, several[:shown]))
    if shown and len(several) > shown:
        text += " and %d more" % (len(several) - shown)
    return text


def stops(several):
    if len(several) > 13:
        several = several[:11] + ["..", several[-1]]
    return "-".join(map(str, several))


def runs(several):
    """A group of junctions; four in a row or more are told by the first and the last."""
    pieces, k = [], 0
    while k < len(several):
        last = k
        while last + 1 < len(several) and several[last + 1] == several[last] + 1:
            last += 1
        if last < k + 3:
            last = k
        pieces.append("%d" % several[k] if last == k else "%d to %d" % (several[k], several[last]))
        k = last + 1
    return "junction%s %s" % ("" if len(several) == 1 else "s", ", ".join(pieces))


def apart(o, every=False):
    """Rings and groups."""
    shown = None if every else 20
    said = ""
    for ring in o.get("rings", [])[:shown]:
        said += "A ring: trenches %s (%s).\n" % (
            ", ".join(map(str, ring["trenches"])), stops(ring["junctions"]))
    rings, groups = len(o.get("rings", [])), o.get("groups", [])
    if shown and rings > shown:
        said += "%d more rings: 'star explain --all' names each.\n" % (rings - shown)
    if rings == 1:
        said += "Any of its trenches can go, and its junctions stay joined.\n"
    if rings > 1:
        said += ("Any trench of a ring can go, and its junctions stay joined. Before no ring is "
                 "left %d marked trenches have to go.\n" % rings)
    if len(groups) > 1:
        said += "The marked trenches leave the junctions apart, in %d groups:\n" % len(groups)
        said += "".join("  %s\n" % runs(group) for group in groups[:shown])
        if shown and len(groups) > shown:
            said += "%d more groups: 'star explain --all' names each.\n" % (len(groups) - shown)
    return said


def verdict(o):
    """The lines of a verdict, without what is to be done next."""
    if o["verdict"] == "refused":
        return o["words"] + "\n"
    if o["verdict"] == "passed":
        said = ("Passed: the marked trenches reach every junction, and no set that does is "
                "cheaper. Total %d.\n" % o["total"])
        if o["only"]:
            return said + "It is the only cheapest network.\n"
        return said + "Another network costs the same: take out %s, put in %s.\n" % (
            trench(o["out"]), trench(o["in"]))
    said = "A cheaper set exists, for %d less:\n  take out %s\n  put in   %s\n" % (
        o["saving"], trench(o["out"]), trench(o["in"]))
    said += "The plan's total is %d, and %d after this exchange. The least total is %d.\n" % (
        o["total"], o["after"], o["least"])
    if o["after"] == o["least"]:
        return said + "At most %d is saved, and this exchange saves all of it.\n" % o["most"]
    return said + ("At most %d is saved; this exchange is the first one found, and does not save "
                   "all of it.\n" % o["most"])


def check(o, words):
    next_lines = re.search(r"('star explain' says why\.\n.*\n)?$", words).group(0)
    holds("next lines", bool(next_lines) == ("rings" in o or "most" in o or o.get("refusal") == 9),
          words)
    return verdict(o) + apart(o) + next_lines


def build(o, words):
    said = "".join(map(row, o["rows"])) + "Total %d\n" % o["total"]
    marked = o.get("marked")
    if not marked:
        return said
    said += "The marked trenches cost %d" % marked["cost"]
    if not marked["network"]:
        why = re.search(r", and are no network: they .*\n$", words)
        return said + (why.group(0) if why else "?")
    if marked["saving"] == 0:
        return said + " too.\n"
    return said + ": these save %d.\n" % marked["saving"]


def explained(o, r):
    """One trench of explain."""
    if not r["marked"]:
        sign = {"cheaper": "<", "equal": "=", "dearer": ">"}[r["standing"]]
        by = r["price"] - r["dearest"]["price"]
        after, dearest = r["after"], r["dearest"]
        end = {
            "cheaper": "gives a network of %d, for %d less" % (after, -by),
            "equal": "gives another network of %d, equal, no contradiction" % after,
            "dearer": "would give a network of %d, for %d more, so it stays out" % (after, by),
        }[r["standing"]]
        return "%s is left out. Its detour: %s (%s)\n  sum %d, does not count; dearest %d (trench " \
            "%d); %d %s %d: the exchange %s\n" % (
                trench(r), numbers(r["detour"], 12), stops(r["junctions"]), r["sum"],
                dearest["price"], dearest["trench"], r["price"], sign, dearest["price"], end)
    if not r["instead"]:
        return trench(r) + (" is of the plan, and on no detour: no other trench joins what it "
                            "joins, so it is in every network.\n")
    own, least = r["price"], r["cheapest"]["price"]
    said = "%s is of the plan. It is on the detour of %s, which could come in for it;\n" \
        "  the cheapest of them costs %d (trench %d); " % (
            trench(r), numbers(r["instead"], 12), least, r["cheapest"]["trench"])
    if own < least:
        return said + "%d < %d: it stays\n" % (own, least)
    if own == least:
        return said + ("%d = %d: the exchange gives another network of the same total, no "
                       "contradiction\n" % (own, least))
    return said + "%d > %d: the exchange is cheaper\n" % (own, least)


def explain(o, words):
    """The middle of it is made; its first lines, which have one total, are looked at alone."""
    if o["verdict"] == "refused":
        every = "more rings" not in words and "more groups" not in words
        holds("explain: apart", apart(o, every) in words, words, o)
        holds("explain: looked at", o.get("looked_at", True) != ("was not looked at" in words))
        return words[:words.rindex("Refused (")] + verdict(o)
    if words.startswith("One junction"):
        return "One junction needs no trench.\n" + verdict(o)
    head = words.split("\n", 2)
    holds("explain: total", head[0].endswith(", for %d in all." % o["total"]), head[0])
    said = "".join(explained(o, r) for r in o["rows"])
    if not o["rows"]:
        said = "No trench is left out.\n"
    more = re.search(r"^(\d+) more are left out: .*\n", words, re.M)
    holds("explain: hidden", o["hidden"] == (int(more.group(1)) if more else 0))
    return "\n".join(head[:2]) + "\n" + said + (more.group(0) if more else "") + verdict(o)


def quote(o, words):
    more = o["more"]
    end = "the same." if more == 0 else "%d %s." % (abs(more), "more" if more > 0 else "less")
    return "%s at the new price %d:\nThe cheapest network costs %d today and %d at the new price: " \
        "%s\n" % (trench(o["trench"]), o["price"], o["before"], o["after"], end)


def breaking(o, words):
    own = o["trench"]
    if o["always"]:
        return "%s has no other route; it is in every network.\nThe cheapest network costs %d " \
            "today, and this changes by as much as the trench's price.\n" % (trench(own), o["before"])
    price, instead, largest = o["breaking"], trench(o["instead"]), 2147483647
    if own["price"] > price:
        how = ", the least price" if price == -2147483648 else " or less"
        said = " is in no cheapest network at this price. It is in a cheapest network at %d%s; " \
            "above, %s stands in its place." % (price, how, instead)
    elif price == largest:
        said = " is in a cheapest network at every price; at the largest, %d, %s costs as much." % (
            price, instead)
    else:
        said = " is in a cheapest network up to %d; above, %s takes its place." % (price, instead)
    last = "the price %d" if price == largest else "any price from %d on"
    return "%s%s\nThe cheapest network costs %d today, and %d at %s.\n" % (
        trench(own), said, o["before"], o["after"], last % price)


def which(o, words):
    own, other = o["totals"] if o["stands"] == 1 else o["totals"][::-1]
    name, second = ("first", "second") if o["stands"] == 1 else ("second", "first")
    said = "The %s plan stands, %s: " % (name, o["file"] if o["stands"] == 1 else o["second"])
    if own == other:
        return said + "both cost %d.\n" % own
    return said + "it costs %d and the %s %d, %d more.\n" % (own, second, other, other - own)


def stretch(o, words):
    way, ends, dearest = o["rows"], o["junctions"], o["dearest"]
    said = "From junction %d to junction %d the plan has %d trench%s:\n" % (
        ends[0], ends[-1], len(way), "" if len(way) == 1 else "es")
    said += "".join(row(r, ends[k:k + 2]) for k, r in enumerate(way))
    said += "The way costs %d in all. Its dearest is trench %d, price %d" % (
        o["sum"], dearest["trench"], dearest["price"])
    if o["as_dear"]:
        verb = "is" if len(o["as_dear"]) == 1 else "are"
        said += "; %s %s as dear" % (numbers(o["as_dear"], 12), verb)
    elif len(way) > 1:
        said += "; no other of its trenches is as dear"
    if o["verdict"] == "cheaper":
        return said + (".\nThe plan is no cheapest network, so nothing is promised of other "
                       "routes: 'star check' names an exchange.\n")
    return said + ".\nNo route between %d and %d over the table's trenches has a dearest trench " \
        "cheaper than %d.\n" % (ends[0], ends[-1], dearest["price"])


def districts(o, words):
    said = ""
    for k, d in enumerate(o["districts"], 1):
        run = "trench %d" % d["first"]
        if d["first"] < d["last"]:
            run = "trenches %d to %d" % (d["first"], d["last"])
        said += "District %d, %s:\n" % (k, run)
        said += "".join(map(row, d["rows"])) + "Total %d\n" % d["total"]
    return said + "The city, from the districts' trenches:\n%sTotal %d\n" \
        "No network of the whole table is cheaper.\n" % ("".join(map(row, o["rows"])), o["total"])


def outlets(o, words):
    count, junction, total, least = o["count"], o["junction"], o["total"], o["least"]
    said = "A cheapest network with exactly %d trench%s at junction %d:\n" % (
        count, "" if count == 1 else "es", junction)
    said += "".join(map(row, o["rows"])) + "Total %d\n" % total
    if total == least:
        return said + "No network is cheaper, whatever it has at junction %d.\n" % junction
    return said + "With any number at junction %d the cheapest network costs %d: %d less.\n" % (
        junction, least, total - least)


def mend(o, words):
    said = "".join("taken out %s\n" % trench(r) for r in o["out"])
    said += "".join("put in    %s\n" % trench(r) for r in o["in"])
    now = " The plan's total is %d now: no network is cheaper.\n" % o["total"]
    if not said:
        said = "There is nothing to mend: the plan is a cheapest network. "
        said += "Total %d.\n" % o["total"]
    elif o["marked"]["network"]:
        said += "The plan's total was %d and is %d now: no network is cheaper.\n" % (
            o["marked"]["cost"], o["total"])
    elif "No trench was marked." in words:
        said += "No trench was marked." + now
    else:
        said += "The marked trenches were no network, and cost %d.%s" % (
            o["marked"]["cost"], now)
    for step in o.get("steps", []):
        if step["step"] == "dropped":
            said += "dropped %s: it closes a ring\n" % trench(step["out"])
        elif step["step"] == "added":
            said += "added %s: it joins what was apart\n" % trench(step["in"])
        else:
            said += "exchanged %s for %s: saves %d\n" % (
                trench(step["out"]), trench(step["in"]), step["out"]["price"] - step["in"]["price"])
    return said


def digs(o, words):
    lines = ["%d %d %d %d\n" % tuple(r[key] for key in ("trench", "left", "right", "price"))
             for r in o["rows"]]
    return "".join(lines) + "Total %d\n" % o["total"]


def renumbered(o):
    gone, said = o["gone"], "No trench is struck: the file is as it was.\n"
    if gone:
        said = "%d struck trench%s gone.\n" % (gone, " is" if gone == 1 else "es are")
    lines = ["trench %d is now trench %d\n" % (r["old"], r["new"]) for r in o["numbers"]]
    return said + "".join(lines)


def add(o, words):
    said = renumbered(o) if "gone" in o else ""
    said += "trench %d is new\n" % o["trench"]
    return said + (o["notes"] + "\n" if "notes" in o else "")


def merge(o, words):
    return renumbered(o) + (o["notes"] + "\n" if "notes" in o else "")


def changed(o, words):
    """The trenches that were so already."""
    says = {"mark": "is marked already", "unmark": "is unmarked already",
            "unstrike": "is not struck", "price": "has this price already"}
    return "".join("trench %d %s\n" % (i, says[o["command"]]) for i in o["same"])


WORDS = {"check": check, "build": build, "explain": explain, "digs": digs, "quote": quote,
         "breaking": breaking, "which": which, "stretch": stretch, "add": add, "merge": merge,
         "districts": districts, "mend": mend, "outlets": outlets, "strike": changed,
         "unstrike": changed, "mark": changed, "unmark": changed, "price": changed}
TOLD = {"passed", "cheaper", "built", "told", "mended", "written"}
WRITING = {"mend", "add", "merge", "strike", "unstrike", "mark", "unmark", "price"}


def documented(command):
    """The keys that a command's page names."""
    page = star(command, "--help")[0].decode()
    return set(re.findall(r"^    ([a-z_]+): ", page[page.index("Keys of --json"):], re.M))


def read(name, out):
    """The object that was written: one line, UTF-8, one object."""
    try:
        text = out.decode()
        holds(name + ": one line", text.count("\n") == 1 and text.endswith("\n"), text)
        return json.loads(text)
    except ValueError as why:
        holds(name + ": JSON", False, why, out)
        return None


def fault(name, o, said):
    """A refusal or another fault: the object has its words and its number."""
    holds(name + ": words", said.startswith(o["words"] + "\n"), o, said)
    number = re.match(r"Refused \((\d+)\)", o["words"])
    holds(name + ": number", o.get("refusal") == (int(number.group(1)) if number else None), o)
    line = re.match(r"Refused \(\d+\): .*?:(\d+): ", o["words"])
    holds(name + ": line", o.get("line") == (int(line.group(1)) if line else None), o)


def ask(name, command, words, text):
    """Asks for words and for an object, and compares."""
    own = tempfile.mktemp(dir=WORK)
    output = ["-o", own] if command in WRITING else []
    plain = star(command, *words, *output, text=text)
    asked = star(command, *words, *output, "--json", text=text)
    o = read(name, asked[0])
    if o is None:
        return
    beside = command in WRITING or plain[2] > 2 or (command == "digs" and plain[2] == 2)
    said = (plain[1] if beside else plain[0]).decode("utf-8", "replace")
    holds(name + ": status", asked[2] == plain[2] == o["status"], asked, plain)
    holds(name + ": command", o["command"] == command)
    seen.setdefault(command, set()).update(o)
    if o["verdict"] in TOLD:
        made = WORDS[command](o, said)
        holds(name + ": the words", made == said, "\n" + made + "--\n" + said)
    elif o["verdict"] == "refused" and command in ("check", "explain"):
        made = WORDS[command](o, said) if "Refused (7)" not in said else o["words"] + "\n"
        holds(name + ": the words", made == said, "\n" + made + "--\n" + said)
    else:
        fault(name, o, said)


def stored():
    """The stored cases of the console."""
    for path in sorted(glob.glob("tests/console/*.txt")):
        case = os.path.basename(path)[:-4]
        command = case.split("-")[0]
        if command not in WORDS:
            continue
        words = []
        if os.path.exists(path[:-4] + ".words"):
            with open(path[:-4] + ".words") as text:
                words = text.read().split()
        if "--table" in words or "--certificate" in words:
            continue
        with open(path, "rb") as text:
            ask(case, command, words or ["-"], text.read())


def table(n, m):
    """A random table: mostly a network, with marks and struck trenches."""
    pairs = [(u, v) for u in range(1, n + 1) for v in range(u + 1, n + 1)]
    random.shuffle(pairs)
    lines = ["junctions %d" % n]
    for u, v in pairs[:m]:
        struck = "struck " if random.random() < 0.1 else ""
        price = random.choice((0, 3, 3, -7, random.randrange(-99, 99)))
        lines.append("%s%d %d %d %d" % (struck, u, v, price, random.random() < 0.6))
    return ("\n".join(lines) + "\n").encode()


def randomly():
    """Random tables, mended ones among them."""
    for number in range(14):
        n = random.randrange(2, 40 if number % 7 == 6 else 9)
        text = table(n, random.randrange(n, 3 * n))
        if number % 2:
            text = star("mend", "-", text=text)[0] or text
        m = text.count(b"\n") - 1
        a, b = random.sample(range(1, n + 1), 2)
        i = str(random.randrange(1, m + 2))
        asked = [["check", "-"], ["build", "-"], ["explain", "-", "--all"], ["explain", "-", i],
                 ["quote", "-", i, str(random.randrange(-99, 99))], ["breaking", "-", i],
                 ["stretch", "-", str(a), str(b)], ["mend", "-", "--steps"], ["digs", "-"],
                 ["digs", "-", "--plan"],
                 ["add", "-", str(a), str(b), "7"], ["merge", "-"], ["strike", "-", i],
                 ["unstrike", "-", i], ["mark", "-", i, "1"], ["unmark", "-", "1", i],
                 ["price", "-", i, "3"],
                 ["outlets", "-", str(a), str(random.randrange(4))],
                 ["districts", "-", str(1 + m // 2), str(m)]]
        for words in asked:
            ask("random %d %s" % (number, words[0]), words[0], words[1:], text)
        with open(os.path.join(WORK, "other.txt"), "wb") as other:
            other.write(text)
        ask("random %d which" % number, "which", ["-", os.path.join(WORK, "other.txt")], text)


def large():
    """Many rings and groups: the object has all of them, the words the first twenty."""
    ring = ["%d %d 1 1" % (u, v) for u in range(1, 47) for v in range(u + 1, 47)][:1024]
    ask("rings", "check", ["-"], ("\n".join(ring) + "\n").encode())
    full = ["struck 1 2 1 0"] + ring[1:]
    ask("full", "add", ["-", "45", "46", "3"], ("\n".join(full) + "\n").encode())
    ask("full", "merge", ["-"], ("\n".join(full) + "\n").encode())
    ask("a name", "merge", ["-"], b"A;B;5;1\nstruck;B;C;4\n")
    ask("a gap", "add", ["-", "1", "9", "3"], b"1 2 3 1\n2 3 4 1\n")
    lone = ["junctions 255"] + ["%d %d 1 %d" % (v, v + 1, v % 3 == 0) for v in range(1, 255)]
    ask("groups", "check", ["-"], ("\n".join(lone) + "\n").encode())
    ask("groups explained", "explain", ["-", "--all"], ("\n".join(lone) + "\n").encode())


def names():
    """File names with any bytes: the object is JSON, whether the file is there or not."""
    odd = [b'a"b', b"a\\b", b"a\nb", b"a\tb\x01\x7f", "straße €\U0001f600".encode(),
           b"\xff\xfe\x80", b"\xc3", b"\xed\xa0\x80", b"\xf4\x90\x80\x80",
           b"\xe0\x80\x80", b"%s%n", b"x" * 250]
    for name in odd:
        path = os.path.join(WORK.encode(), name)
        for there in (False, True):
            if there:
                with open(path, "wb") as text:
                    text.write(b"1 2 5 1\n2 3 4 0\n")
            for command in ("check", "build", "which"):
                words = [path] if command != "which" else [path, path]
                o = read("name %r" % name, star(command, *words, "--json")[0])
                shown = path.decode("utf-8", "surrogateescape")
                shown = "".join("\ufffd" if "\udc80" <= c <= "\udcff" else c for c in shown)
                holds("name %r" % name, o and o["file"] == shown, o, shown)
                holds("name %r: status" % name, o and o["status"] == {
                    True: {"check": 2, "build": 0, "which": 2}[command], False: 3}[there], o)


def faults():
    """Wrong usage, unreadable input, options that exclude each other, output to a file."""
    yard = "console/examples/yard.txt"
    for words in (["check", "--tabel", yard], ["check", yard, yard], ["quote", yard, "x", "1"],
                  ["explain", yard, "1", "2"], ["build", yard, "--table"], ["mend", yard],
                  ["add", yard, "2", "4", "7"], ["merge", yard], ["mark", yard, "1"],
                  ["mark", yard, "1", "1", "-o", "new.txt"],
                  ["check", yard, "--certificate"], ["check", yard, "-o"], ["outlets", yard, "1"]):
        words.insert(1, "--json")
        out, err, status = star(*words)
        o = read("usage", out)
        holds("usage %s" % words, o and (o["verdict"], o["status"], status) == ("misused", 4, 4)
              and o["words"] + "\n" == err.decode(), o, err)
    for text in (b"1 2\n", b"1 2 5 1\nx y z\n", b"\xff\xfe1\x00"):
        out, err, status = star("check", "-", "--json", text=text)
        o = read("unreadable", out)
        holds("unreadable", o and (o["verdict"], o["status"], status) == ("unreadable", 3, 3)
              and o["words"] + "\n" == err.decode(), o, err)
    path = os.path.join(WORK, "object.json")
    out, err, status = star("check", yard, "--json", "-o", path)
    written = b""
    if os.path.exists(path):
        with open(path, "rb") as text:
            written = text.read()
    same = written == star("check", yard, "--json")[0]
    holds("to a file", written and same and not out and not err)
    for command in ("draw", "dot", "page", "table"):
        out, err, status = star(command, yard, "--json")
        holds("no object: " + command, status == 4 and b"unknown option" in err and not out)
    with open("/dev/full", "wb") as full:
        done = subprocess.run(STAR + ["check", yard, "--json"], stdout=full, stderr=subprocess.PIPE)
    holds("full", done.returncode == 5)


def keys():
    """Every key that was written is one of the page, and every one of the page was written."""
    holds("all commands", set(seen) == set(WORDS), set(WORDS) - set(seen))
    for command, written in seen.items():
        page = documented(command)
        known = page | COMMON | FAULT
        holds(command + ": keys that no page names", written <= known, written - known)
        holds(command + ": keys that are never written", page <= written, page - written)


random.seed(41)
os.chdir(ROOT)
with tempfile.TemporaryDirectory() as WORK:
    stored()
    randomly()
    large()
    names()
    faults()
    keys()
print("%d passed, %d failed" % (counts[True], counts[False]))
sys.exit(1 if counts[False] else 0)
